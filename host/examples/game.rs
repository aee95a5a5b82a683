//! A game whose creatures are scripts that never end: each executes 10,000 operations a frame,
//! whatever it does. It prints:
//!
//! ```text
//! the crab is out: it sees no sea (line 2, column 24)
//! the hare is at the goal, and the tortoise on its way
//! the stone is where it was
//! ```
use rhai_world::{Engine, EvalError, Progress, Run, Scope};
use std::collections::BTreeMap;
use std::sync::mpsc::{channel, Receiver};

/// How many operations a creature has in a frame.
const A_FRAME: u64 = 10_000;

/// Where the goal is.
const GOAL: i64 = 500;

/// Thinks this long before each step.
const RUNNER: &str = "
loop {
    for n in 0..thought { n * n; }
    step(name, 1);
}";

const CRAB: &str = "
loop { step(name, -1); throw \"it sees no sea\"; }";

const STONE: &str = "loop {}";

/// A creature with its run, until that ends.
struct Creature<'a> {
    name: &'a str,
    run: Option<Run<'a>>,
}

impl Creature<'_> {
    /// Executes one frame; a creature whose run ends is out.
    fn goes_on(&mut self) {
        let Some(run) = &mut self.run else { return };
        match run.go(A_FRAME) {
            Ok(Progress::Paused | Progress::Statement { .. }) => {}
            Ok(Progress::Done(_)) => self.run = None,
            Err(error) => {
                println!("the {} is out: {error}", self.name);
                self.run = None;
            }
        }
    }
}

/// Plays frames until one creature is at the goal, or too many are over; returns where all are.
fn play(creatures: &mut [Creature<'_>], steps: &Receiver<(String, i64)>) -> BTreeMap<String, i64> {
    let mut places = BTreeMap::new();
    for _ in 0..100_000 {
        creatures.iter_mut().for_each(Creature::goes_on);
        for (name, by) in steps.try_iter() {
            let place = places.entry(name).or_insert(0);
            *place = GOAL.min(*place + by);
        }
        if places.values().any(|place| *place == GOAL) {
            break;
        }
        // (here the frame would be drawn)
    }
    places
}

fn main() -> Result<(), EvalError> {
    let (sender, steps) = channel();
    let mut engine = Engine::new();
    engine.set_max_memory(1 << 20);
    engine.register_fn("step", move |name: String, by: i64| sender.send((name, by.clamp(-1, 1))).map_err(|_| "the game is over"));
    let scripts = [("hare", 10, RUNNER), ("tortoise", 1_000, RUNNER), ("crab", 0, CRAB), ("stone", 0, STONE)];
    let mut scopes = Vec::new();
    for (name, thought, _) in scripts {
        let mut scope = Scope::new()?;
        scope.push("name", name)?.push("thought", thought)?;
        scopes.push(scope);
    }
    let mut creatures = Vec::new();
    for ((name, _, script), scope) in scripts.into_iter().zip(&mut scopes) {
        creatures.push(Creature { name, run: Some(engine.start(scope, &engine.compile(script)?)?) });
    }
    let places = play(&mut creatures, &steps);
    let place = |name| places.get(name).copied().unwrap_or(0);
    if place("hare") == GOAL && (1..GOAL).contains(&place("tortoise")) {
        println!("the hare is at the goal, and the tortoise on its way");
    }
    if place("stone") == 0 {
        println!("the stone is where it was");
    }
    Ok(())
}
