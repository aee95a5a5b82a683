//! A session with a journal: a new world answers the same to all of it.
use rhai_world::{Command, Error, Journal, Limits, World};

fn main() -> Result<(), Error> {
    let mut world = World::new(Limits::default())?;
    let mut journal = Journal::new();
    for line in ["int 7", "share 0", "copy 0", "write 1 9", "push x 1", "drop"] {
        match journal.line(&mut world, line) {
            Ok(answer) => println!("{line}: {answer:?}"),
            Err(error) => println!("{line}: {error}"),
        }
    }
    journal.apply(&mut world, &Command::Show { i: 0 })?;
    print!("the same again:\n{}", String::from_utf8_lossy(&journal.replayed()?));
    Ok(())
}
