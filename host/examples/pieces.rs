//! Two scripts that run in turns, each with its own limits: for a program that has other work, or
//! many scripts.
use rhai_world::{Engine, EvalError, Progress, Scope};
use std::time::Duration;

fn main() -> Result<(), EvalError> {
    let mut engine = Engine::new();
    engine.set_max_memory(8 << 20).set_max_time(Duration::from_secs(10)).set_max_output(10_000);
    let texts = ["let n = 0; while n < 3_000 { n += 1; } print(`counted to ` + n);", "let all = [0]; loop { all += all; }"];
    let scripts = texts.map(|text| text.replace('`', "\""));
    let mut scopes = [Scope::new()?, Scope::new()?];
    let mut runs = Vec::new();
    for (scope, text) in scopes.iter_mut().zip(&scripts) {
        runs.push((engine.start(scope, &engine.compile(text)?)?, text));
    }
    while !runs.is_empty() {
        runs.retain_mut(|(run, text)| match run.go(1_000) {
            Ok(Progress::Paused | Progress::Statement { .. }) => true,
            Ok(Progress::Done(_)) => false,
            Err(error) => {
                println!("{}", error.render(text));
                false
            }
        });
    }
    Ok(())
}
