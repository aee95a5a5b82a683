//! Runs a script from standard input: prints what it prints, and then why it ended early, if it did.
use rhai_world::{Limits, Script, ScriptError};
use std::num::NonZeroUsize;

fn main() -> std::io::Result<()> {
    let text = std::io::read_to_string(std::io::stdin())?;
    let million = NonZeroUsize::new(1_000_000);
    match Script::run(&text, 100_000_000, Limits::new().with_text(million).with_items(million)) {
        Ok(printed) => print!("{printed}"),
        Err(error) => {
            if let ScriptError::Fault { printed, .. } = &error {
                print!("{printed}");
            }
            println!("error: {error}");
        }
    }
    Ok(())
}
