//! A counter that two holders share, one of them as an entry of the scope.
use rhai_world::{Error, Limits, Operator, Place, World};

fn main() -> Result<(), Error> {
    let mut world = World::new(Limits::default())?;
    let counter = world.name("counter")?;
    world.put_int(0)?;
    world.share(0)?;
    world.copy(0)?;
    world.push(counter, 1)?;
    world.put_int(1)?;
    (0..10).try_for_each(|_| world.assign(Operator::PlusAssign, Place::Entry(counter), 2))?;
    println!("{}", world.show(0)?);
    Ok(())
}
