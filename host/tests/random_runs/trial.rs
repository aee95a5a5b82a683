//! One trial: two scripts over two scopes, in one piece and in several, with what a program may do in between.
use crate::functions::{take_kept, take_log, Expected, Limits};
use crate::random::Random;
use crate::scripts::{script, variables, NAMED};
use rhai_world::{Ast, Engine, EvalError, Function, Progress, Run, Saved, Scope, Value};
use std::panic::{catch_unwind, resume_unwind, AssertUnwindSafe};
use std::sync::Arc;

/// How a run ended.
#[derive(Debug, PartialEq)]
pub enum End {
    Done(Value),
    Failed(EvalError),
    /// It was dropped while it was paused.
    Dropped,
    /// The callback for lines panicked.
    Panicked,
}

/// What is to be the same each time a script runs over equal variables.
#[derive(Debug, PartialEq)]
pub struct Outcome {
    pub end: End,
    log: Vec<String>,
    operations: u64,
    place: Option<(u32, u32)>,
}

/// What is done.
#[derive(Clone)]
pub struct Trial {
    pub limits: Limits,
    engine: Arc<Engine>,
    pub first: Ast,
    pub second: Ast,
    variables: Vec<(&'static str, Value)>,
    /// The function that is called at the end of the first script, if any.
    function: Option<(&'static str, usize)>,
    /// How many operations are executed before a run is dropped.
    until: u64,
}

impl Trial {
    pub fn new(random: &mut Random) -> Trial {
        let limits = Limits::new(random);
        let engine = Arc::new(limits.engine());
        // (the memory for compiling a script is limited, too)
        let mut unlimited = Engine::new();
        unlimited.on_print(|_| {});
        let ast = |random: &mut Random| {
            let text = script(random);
            unlimited.compile(&text).unwrap_or_else(|error| panic!("{}\n{text}", error.render(&text)))
        };
        Trial {
            first: ast(random),
            second: ast(random),
            variables: variables(random),
            function: random.one_in(8).then(|| random.pick(&NAMED)),
            until: if random.one_in(3) { random.below(2_000) } else { u64::MAX },
            limits,
            engine,
        }
    }

    pub fn run(&self, random: &mut Random) -> Outcome {
        let (mut one, mut other) = (self.scope(), self.scope());
        let whole = self.outcome(&mut one, &self.first, self.until, None);
        let kept_one = self.kept(&one);
        let pieces = self.outcome(&mut other, &self.first, self.until, Some(random));
        let kept_other = self.kept(&other);
        self.compare((&whole, &one), (&pieces, &other));
        self.call_kept((&mut one, &kept_one), (&mut other, &kept_other));
        if random.one_in(2) {
            self.go_on_elsewhere(&mut one, &kept_one, random);
        }
        if random.one_in(4) {
            self.spoil(&one, random);
        }
        drop(other);
        if random.one_in(4) {
            self.give_theirs(&mut one, &kept_other);
        }
        whole
    }

    fn scope(&self) -> Scope {
        Scope::of(self.variables.clone()).expect("there is memory")
    }

    fn start<'a>(&'a self, scope: &'a mut Scope, ast: &Ast) -> Result<Run<'a>, EvalError> {
        match self.function {
            Some((name, count)) if ast.text() == self.first.text() => {
                self.engine.start_fn(scope, ast, name, vec![Value::from(3); count])
            }
            _ => self.engine.start(scope, ast),
        }
    }

    /// Runs a script: in pieces of random sizes, if there are such, and otherwise in one.
    fn outcome(&self, scope: &mut Scope, ast: &Ast, until: u64, pieces: Option<&mut Random>) -> Outcome {
        take_log();
        let mut run = match self.start(scope, ast) {
            Ok(run) => run,
            Err(error) => return Outcome { end: End::Failed(error), log: take_log(), operations: 0, place: None },
        };
        let end = match pieces {
            None => whole(&mut run, until),
            Some(random) => in_pieces(&mut run, until, random),
        };
        let (operations, place) = (run.operations(), run.line_column());
        let seen = (end == End::Dropped && self.function.is_none()).then(|| outermost(&run)).flatten();
        drop(run);
        if let Some(seen) = seen {
            are_left(&seen, scope);
        }
        Outcome { end, log: take_log(), operations, place }
    }

    /// Compares a run in one piece with another in several.
    fn compare(&self, (whole, one): (&Outcome, &Scope), (pieces, other): (&Outcome, &Scope)) {
        if self.limits.are_exact() {
            assert_eq!(whole, pieces);
            assert_eq!(one.save(), other.save());
            assert_eq!(one.names(), other.names());
        }
    }

    /// Returns the functions that the program kept, and those among the variables.
    fn kept(&self, scope: &Scope) -> Vec<Function> {
        let mut kept = take_kept();
        kept.extend(["f", "g", "x"].into_iter().filter_map(|name| scope.get::<Function>(name)));
        kept
    }

    /// Calls kept functions on their scopes, and on the wrong one.
    fn call_kept(&self, (one, kept_one): (&mut Scope, &[Function]), (other, kept_other): (&mut Scope, &[Function])) {
        for (number, function) in kept_one.iter().enumerate() {
            let called = self.call(function, other, number);
            assert_eq!(called.end, End::Failed(EvalError::OtherScope));
        }
        for (number, (function, twin)) in kept_one.iter().zip(kept_other).enumerate() {
            let (called, twin) = (self.call(function, one, number), self.call(twin, other, number));
            if self.limits.are_exact() {
                assert_eq!(called, twin);
            }
        }
        if self.limits.are_exact() {
            assert_eq!((kept_one.len(), one.save()), (kept_other.len(), other.save()));
        }
    }

    /// Calls a function with none or one argument; now and then with another script than its own.
    fn call(&self, function: &Function, scope: &mut Scope, number: usize) -> Outcome {
        take_log();
        let ast = if number % 5 == 4 { &self.second } else { &self.first };
        let arguments = vec![Value::from(number as i64); usize::from(number % 4 != 3)];
        let called = caught(|| function.call::<Value>(&self.engine, scope, ast, arguments));
        take_kept();
        let end = called.map_or(End::Panicked, |called| called.map_or_else(End::Failed, End::Done));
        Outcome { end, log: take_log(), operations: 0, place: None }
    }

    /// Saves the scope, and runs the second script over it here, and on another thread over what is restored there.
    fn go_on_elsewhere(&self, scope: &mut Scope, kept: &[Function], random: &mut Random) {
        let saved = scope.save().expect("there is memory");
        let (trial, kept, mut its_random) = (self.clone(), kept.to_vec(), Random::new(random.next()));
        let thread = std::thread::spawn(move || {
            let mut scope = saved.restore().expect("it was saved");
            assert_eq!(scope.save().as_ref(), Ok(&saved));
            for (number, function) in kept.iter().enumerate() {
                assert_eq!(trial.call(function, &mut scope, number).end, End::Failed(EvalError::OtherScope));
            }
            let outcome = trial.outcome(&mut scope, &trial.second, u64::MAX, Some(&mut its_random));
            take_kept();
            (outcome, scope.names(), scope.save())
        });
        let there = thread.join().unwrap_or_else(|panic| resume_unwind(panic));
        let outcome = self.outcome(scope, &self.second, u64::MAX, None);
        take_kept();
        if self.limits.are_exact() {
            assert_eq!((outcome, scope.names(), scope.save()), there);
        }
    }

    /// Changes what was saved: it is refused, or is another scope.
    fn spoil(&self, scope: &Scope, random: &mut Random) {
        let mut bytes = scope.save().expect("there is memory").as_bytes().to_vec();
        for _ in 0..1 + random.below(3) {
            let at = random.below(bytes.len() as u64) as usize;
            match random.below(4) {
                0 => bytes.truncate(at.max(1)),
                1 => bytes.insert(at, random.next() as u8),
                2 => bytes[at] = random.next() as u8,
                _ => bytes[at] ^= 1 << random.below(8),
            }
        }
        match Saved::from_bytes(bytes).restore() {
            Ok(mut scope) => {
                assert!(scope.save().is_ok());
                self.outcome(&mut scope, &self.first, u64::MAX, None);
                take_kept();
            }
            Err(error) => assert!(matches!(error, EvalError::NotSaved | EvalError::OutOfMemory { .. }), "{error:?}"),
        }
    }

    /// Uses functions of a scope that is gone: by calls, and by a function of the program that returns them.
    fn give_theirs(&self, scope: &mut Scope, theirs: &[Function]) {
        for (number, function) in theirs.iter().enumerate() {
            assert_eq!(self.call(function, scope, number).end, End::Failed(EvalError::OtherScope));
        }
        crate::functions::set_kept(theirs.to_vec());
        self.outcome(scope, &self.first, u64::MAX, None);
        take_kept();
    }

    /// Runs the first script while an allocation fails, or all from one on: without memory it ends by that, and the scope can be used.
    #[cfg(feature = "faults")]
    pub fn refuse(&self, random: &mut Random) {
        // (an error in another scope is one that a script may catch)
        if self.first.text().contains("inside(") {
            return;
        }
        let run = |scope: &mut Scope| self.outcome(scope, &self.first, u64::MAX, None);
        let mut scope = self.scope();
        let (expected, asked) = rhai_world::refuse(u64::MAX, false, || run(&mut scope));
        take_kept();
        for _ in 0..4 {
            let (nth, lasts, mut scope) = (random.below(asked + 1), random.one_in(2), self.scope());
            let (found, _) = rhai_world::refuse(nth, lasts, || run(&mut scope));
            let is_refused = match (&found.end, &expected.end) {
                (End::Failed(EvalError::OutOfMemory { .. }), _) => true,
                // (the memory for the message was refused)
                (End::Failed(EvalError::Runtime { message, .. }), _) if message.is_empty() => true,
                // (that for the list of calls was, which ends early)
                (End::Failed(cut), End::Failed(whole)) => {
                    cut.to_string() == whole.to_string() && whole.calls().starts_with(cut.calls())
                }
                _ => false,
            };
            take_kept();
            assert!(
                is_refused || !self.limits.are_exact() || found == expected,
                "request {nth} {lasts}: {found:?}\n{expected:?}"
            );
            scope.clear().expect("it is open");
            scope.extend(self.variables.clone()).expect("there is memory");
            let again = run(&mut scope);
            take_kept();
            assert!(!self.limits.are_exact() || again == expected, "after request {nth} {lasts}: {again:?}\n{expected:?}");
        }
    }

    /// Repeats a run over the same scope, which doesn't hold more and more memory.
    pub fn repeat(&self, times: usize) {
        // (a collection runs when there are more than a thousand cells)
        let cells = Engine::new().compile("for i in 0..40 { let x = i; let f = || x; }").expect("it is a script");
        let mut scope = Scope::new().expect("there is memory");
        let mut held = Vec::new();
        for _ in 0..times {
            scope.extend(self.variables.clone()).expect("there is memory");
            self.outcome(&mut scope, &self.first, self.until, None);
            take_kept();
            scope.clear().expect("it is open");
            Engine::new().run_ast_with_scope(&mut scope, &cells).expect("there is no limit");
            held.push(scope.memory().held);
        }
        let late = held.split_off(times * 2 / 3);
        // (until a collection a run adds cells, and the last one before it may come a run later; the allocator rounds sizes
        // up, not always alike)
        let step = held[times / 3..].windows(2).map(|two| two[1].saturating_sub(two[0])).max();
        let (early, late) = (held.into_iter().max(), late.into_iter().max());
        assert!(late <= early.zip(step).map(|(early, step)| early + step + 512), "{early:?} {step:?} {late:?}");
    }
}

/// Does the work; `None` if a callback panicked as it should now and then.
fn caught<T>(work: impl FnOnce() -> T) -> Option<T> {
    match catch_unwind(AssertUnwindSafe(work)) {
        Ok(done) => Some(done),
        Err(panic) if panic.is::<Expected>() => None,
        Err(panic) => resume_unwind(panic),
    }
}

/// Goes on until so many operations were executed.
fn whole(run: &mut Run<'_>, until: u64) -> End {
    match caught(|| run.go(until)) {
        None => End::Panicked,
        Some(Ok(Progress::Done(value))) => End::Done(value),
        Some(Ok(Progress::Paused)) => End::Dropped,
        Some(Ok(Progress::Statement { .. })) => panic!("it isn't to stop there"),
        Some(Err(error)) => ended(run, error),
    }
}

/// The same, in pieces, and looks inside meanwhile.
fn in_pieces(run: &mut Run<'_>, until: u64, random: &mut Random) -> End {
    let most = random.pick(&[1, 3, 20, 200, 5_000]);
    while run.operations() < until {
        let before = run.operations();
        let piece = random.below(most + 1).min(until - before);
        match caught(|| run.go(piece)) {
            None => {
                // (what follows is not promised, but must not abort)
                let _again = caught(|| run.go(piece));
                return End::Panicked;
            }
            Some(Ok(Progress::Done(value))) => return End::Done(value),
            Some(Ok(Progress::Paused)) => assert!(run.operations() >= before + piece),
            Some(Ok(Progress::Statement { line, column })) => assert_eq!(run.line_column(), Some((line, column))),
            Some(Err(error)) => return ended(run, error),
        }
        if random.one_in(16) {
            look(run);
        }
        if random.one_in(32) {
            run.stop_at_statements(random.one_in(2)).expect("it stands");
        }
    }
    End::Dropped
}

fn ended(run: &mut Run<'_>, error: EvalError) -> End {
    assert_eq!(run.go(1), Err(EvalError::Ended));
    assert!(run.calls().is_empty() && run.variables(0).is_ok_and(|variables| variables.is_empty()));
    End::Failed(error)
}

/// Looks at the functions under way and their variables.
fn look(run: &Run<'_>) {
    let calls = run.calls();
    if run.operations() > 0 {
        // (at the limit on memory there may be no room for a name, and the list ends)
        let outermost = calls.last().map(|call| call.function.as_str());
        assert!(outermost.is_none_or(|name| name.is_empty() || NAMED.iter().any(|(it, _)| *it == name)), "{calls:?}");
    }
    for call in 0..=calls.len() {
        if let Ok(variables) = run.variables(call) {
            assert!(call < calls.len() || variables.is_empty(), "{variables:?}");
        }
    }
    assert!(run.memory().held > 0 && !format!("{run:?} {calls:?}").is_empty());
}

/// Returns the variables of the statements outside functions, from the newest to the oldest; `None` if they can't be taken out.
fn outermost(run: &Run<'_>) -> Option<Vec<(String, Value)>> {
    let calls = run.calls();
    let last = calls.last().filter(|call| call.function.is_empty());
    last.and_then(|_| run.variables(calls.len() - 1).ok())
}

/// Checks that a scope has the variables that were seen in its run, except those of blocks. One that was `this` of a method has its value back.
fn are_left(seen: &[(String, Value)], scope: &Scope) {
    let seen = &seen[seen.len() - scope.len()..];
    for (seen, left) in seen.iter().zip(scope.iter().rev()) {
        let left = left.expect("there is memory");
        assert!(*seen == left || seen.0 == left.0 && without_this(&seen.1, &left.1), "{seen:?} {left:?}");
    }
}

/// Whether one value is the other without a part, which is `this` of a method.
fn without_this(seen: &Value, whole: &Value) -> bool {
    match (seen, whole) {
        (Value::Unit, _) => true,
        (Value::Map(seen), Value::Map(whole)) => {
            seen.len() == whole.len() && seen.iter().all(|(key, part)| whole.get(key).is_some_and(|it| without_this(part, it)))
        }
        (seen, whole) => seen == whole,
    }
}
