//! A debugger in a terminal: reads lines, executes them, and shows hand and scope after each.
use rhai_world::{Error, Limits, World};
use std::io::{stdin, BufRead};

fn show(world: &World) -> Result<(), Error> {
    for i in 0..world.hand_len() {
        println!("  {i}: {}", world.debug(i)?);
    }
    let scope = world.show_scope()?;
    if !scope.is_empty() {
        println!("{scope}");
    }
    Ok(())
}

fn main() -> Result<(), Box<dyn std::error::Error>> {
    let mut world = World::new(Limits::default())?;
    for line in stdin().lock().lines() {
        match world.line(&line?) {
            Ok(answer) => println!("{answer:?}"),
            Err(error) => println!("{error}"),
        }
        show(&world)?;
    }
    Ok(())
}
