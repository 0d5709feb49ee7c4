//! Runs that are taken by steps, methods that change their receivers, and a model of states.
use grain::engine::{Bounds, Call, Engine, HostError, RunError, State, Step, Value};
use std::panic::{catch_unwind, AssertUnwindSafe};

fn state(engine: &Engine, text: &str) -> State {
    engine.state(&engine.compile(text).unwrap()).unwrap()
}

/// The call of a step.
fn called(step: Result<Step, RunError>) -> Call {
    match step {
        Ok(Step::Calls(call)) => call,
        other => panic!("{other:?} is no call"),
    }
}

/// An engine with functions that the host answers by steps, and closures.
fn declaring() -> Engine {
    let mut engine = Engine::new();
    engine
        .register("double", |n: i64| n * 2)
        .declare("ask", 1)
        .declare("wait", 0);
    engine
}

const ASKING: &str = "
    fn asked(n) { ask(double(n)) + 1 }
    fn caught(n) { let x = 0; try { x = ask(n); } catch (e) { x = e; } x }
    fn ever() { loop { } }
    fn waiting() { wait() }
    asked(1)";

#[test]
fn a_run_is_taken_by_steps() {
    let mut state = state(&declaring(), ASKING);
    assert_eq!(state.step(1000), Err(RunError::NotNow));
    assert_eq!(state.answer(1), Err(RunError::NotNow));
    state.start().unwrap();
    assert_eq!(state.start(), Err(RunError::NotNow));
    assert_eq!(state.step(0), Ok(Step::Paused));
    let call = called(state.step(1000));
    assert_eq!((&*call.name, call.arguments), ("ask", vec![2.into()]));
    // The call is shown again, and takes no turn.
    let used = state.used();
    assert_eq!(called(state.step(1000)).name, "ask");
    assert_eq!(
        (state.used(), state.resume::<i64>()),
        (used, Err(RunError::NotNow))
    );
    state.answer(4).unwrap();
    assert_eq!(state.answer(5), Err(RunError::NotNow));
    assert_eq!(state.step(1000), Ok(Step::Returned(5.into())));
    assert_eq!(state.step(1000), Err(RunError::NotNow));
    let used = state.used();
    state.start_call("ever", ()).unwrap();
    assert_eq!(state.step(100), Ok(Step::Paused));
    assert_eq!(state.used(), used + 100);
    state.stop();
    assert_eq!(state.step(100), Err(RunError::NotNow));
}

#[test]
fn an_answer_returns_throws_or_fails() {
    let mut state = state(&declaring(), ASKING);
    let answers: [Result<Value, HostError>; 3] = [
        Ok("a".into()),
        Err("thrown".into()),
        Err(HostError::Fail("no network".into())),
    ];
    for answer in answers {
        state.start_call("caught", (7,)).unwrap();
        called(state.step(1000));
        state.answer(answer.clone()).unwrap();
        match (answer, state.step(1000)) {
            (Ok(value), step) => assert_eq!(step, Ok(Step::Returned(value))),
            (Err(HostError::Throw(value)), step) => assert_eq!(step, Ok(Step::Returned(value))),
            (_, Err(RunError::Fault(fault))) => {
                assert!(fault.text().contains("no network (line 3"), "{fault}")
            }
            (_, other) => panic!("{other:?}"),
        }
    }
    // What isn't within the bounds is no answer, and the call waits on.
    let mut deep = Value::Unit;
    for _ in 0..100 {
        deep = Value::Array(vec![deep]);
    }
    state.start_call("waiting", ()).unwrap();
    called(state.step(1000));
    assert_eq!(state.answer(deep), Err(RunError::BadValue));
    state.answer(()).unwrap();
    assert_eq!(state.step(1000), Ok(Step::Returned(Value::Unit)));
}

#[test]
fn runs_are_nested_while_one_waits() {
    let mut engine = declaring();
    engine.bounds(Bounds::new().runs(2));
    let mut state = state(&engine, ASKING);
    state.start().unwrap();
    called(state.step(1000));
    for n in [10, 20] {
        state.start_call("asked", (n,)).unwrap();
        assert_eq!(called(state.step(1000)).arguments, [Value::Int(2 * n)]);
    }
    assert_eq!(state.start_call("asked", (0,)), Err(RunError::NotNow));
    assert_eq!(state.start(), Err(RunError::NotNow));
    for n in [20, 10, 0] {
        state.answer(n).unwrap();
        assert_eq!(state.step(1000), Ok(Step::Returned(Value::Int(n + 1))));
    }
    // A nested run that is ended leaves the one outside it, which waits still.
    state.start().unwrap();
    called(state.step(1000));
    state.start_call("ever", ()).unwrap();
    assert_eq!(state.step(10), Ok(Step::Paused));
    assert_eq!(state.answer(1), Err(RunError::NotNow));
    state.stop();
    state.answer(1).unwrap();
    assert_eq!(state.step(1000), Ok(Step::Returned(2.into())));
}

#[test]
fn a_declared_function_is_a_fault_without_steps() {
    let mut state = state(&declaring(), ASKING);
    let faults = [
        state.run::<i64>().unwrap_err(),
        state.call::<i64>("caught", (1,)).unwrap_err(),
    ];
    for (fault, line) in faults.iter().zip(["line 2", "line 3"]) {
        let RunError::Fault(fault) = fault else {
            panic!("{fault}")
        };
        let text = fault.text();
        assert!(
            text.contains("no closure does `ask`") && text.contains(line),
            "{text}"
        );
    }
    assert_eq!(state.step(1), Err(RunError::NotNow));
    // A later closure does it.
    let mut engine = declaring();
    engine.register("ask", |n: i64| n + 1);
    let mut state = self::state(&engine, ASKING);
    assert_eq!(state.run::<i64>(), Ok(4));
}

#[test]
fn a_closure_leaves_the_runs_outside_it() {
    let mut engine = declaring();
    engine
        .register("leave", |state: &mut State| -> Result<i64, RunError> {
            state.start_call("waiting", ())?;
            called(state.step(1000));
            state.start_call("ever", ())?;
            Ok(5)
        })
        .register("meddle", |state: &mut State| {
            let errors = [
                state.step(1).unwrap_err(),
                state.answer(1).unwrap_err(),
                state.resume::<i64>().unwrap_err(),
            ];
            state.stop();
            errors.iter().all(|error| *error == RunError::NotNow)
        })
        .register("reset", |state: &mut State| state.reset())
        .register("boom", || -> i64 { panic!("boom") });
    let text = "fn waiting() { wait() } fn ever() { loop { } } fn run(f) { f.call() } 0";
    let mut state = state(&engine, text);
    let mut run = |name: &str| {
        let function = Value::Function {
            name: name.into(),
            bound: vec![],
        };
        state.call::<Value>("run", (function,))
    };
    assert_eq!(run("leave"), Ok(5.into()));
    assert_eq!(run("meddle"), Ok(true.into()));
    assert_eq!(run("reset"), Err(RunError::Stopped));
    assert!(catch_unwind(AssertUnwindSafe(|| run("boom"))).is_err());
    assert_eq!(run("leave"), Ok(5.into()));
    assert_eq!(state.step(1), Err(RunError::NotNow));
}

/// An engine with methods.
fn methods() -> Engine {
    let mut engine = declaring();
    engine
        .register_method("add", |this: &mut i64, more: i64| {
            *this += more;
            *this - more
        })
        .register_method("drop_last", |this: &mut Vec<Value>| this.pop())
        .register_method("spoil", |this: &mut i64| {
            *this = -1;
            Err::<(), _>("spoiled")
        })
        .register_method("grow", |this: &mut String, n: i64| {
            *this = "x".repeat(n as usize);
        })
        .register_method("ask_script", |state: &mut State, this: &mut i64| {
            *this = state.call("answer", (*this,))?;
            Ok::<_, RunError>(())
        });
    engine
}

#[test]
fn a_method_changes_a_variable_or_a_part_of_one() {
    let engine = methods();
    let numbers = [
        ("let x = 1; x.add(2); x", 3),
        ("let x = 1; 10 * x.add(2) + x", 13),
        ("let x = 1; add(x, 2); x", 3),
        ("let m = #{ a: [1, 2] }; m.a[1].add(40); m.a[1]", 42),
        ("fn more() { this.add(5); } let x = 1; x.more(); x", 6),
        ("fn answer(n) { n + 100 } let x = 1; x.ask_script(); x", 101),
        ("let a = [1, 2, 3]; a.drop_last() * 10 + a.len", 32),
        // A method that fails has changed its receiver too.
        ("let x = 1; try { x.spoil(); } catch { } x", -1),
        (
            "let x = \"a\"; let y = 0; try { x.spoil(); y = 1; } catch { y = if x == \"a\" { 2 } else { 3 }; } y",
            2,
        ),
        // What isn't a variable's is a copy.
        ("(1 + 1).add(5)", 2),
        ("const X = 1; X.add(5); X", 1),
        ("let x = 1; (x + 0).add(5); x", 1),
        ("fn later(n) { n.add(5); } let x = 1; later(x); x", 1),
    ];
    for (text, number) in numbers {
        assert_eq!(engine.eval::<i64>(text).unwrap(), number, "{text}");
    }
}

#[test]
fn a_receiver_is_within_the_bounds() {
    let mut engine = methods();
    engine.bounds(Bounds::new().value_size(100));
    let text = "fn grown(n) { let s = \"\"; try { s.grow(n); } catch { } s.len }  0";
    let mut state = state(&engine, text);
    assert_eq!(state.call::<i64>("grown", (50,)), Ok(50));
    assert!(matches!(
        state.call::<i64>("grown", (500,)),
        Err(RunError::Fault(fault)) if fault.text().contains("the receiver isn't within the bounds")
    ));
    assert_eq!(state.call::<i64>("grown", (50,)), Ok(50));
}

#[test]
fn a_receiver_is_set_between_two_steps() {
    let mut state = state(&methods(), "fn plain() { ask(1) } let x = 1; x.ask() + x");
    assert_eq!(state.set_receiver(1), Err(RunError::NotNow));
    state.start().unwrap();
    assert_eq!(state.set_receiver(1), Err(RunError::NotNow));
    assert_eq!(called(state.step(1000)).arguments, [Value::Int(1)]);
    state.set_receiver(20).unwrap();
    assert_eq!(called(state.step(1000)).arguments, [Value::Int(20)]);
    state.set_receiver(30).unwrap();
    state.answer(5).unwrap();
    assert_eq!(state.set_receiver(1), Err(RunError::NotNow));
    assert_eq!(state.step(1000), Ok(Step::Returned(35.into())));
    state.start_call("plain", ()).unwrap();
    called(state.step(1000));
    assert_eq!(state.set_receiver(1), Err(RunError::NotNow));
}

/// A pseudorandom number below `most`.
fn below(seed: &mut u64, most: u64) -> u64 {
    *seed = seed
        .wrapping_mul(6_364_136_223_846_793_005)
        .wrapping_add(1_442_695_040_888_963_407);
    (*seed >> 33) % most
}

const MODELLED: &str = "
    fn put(n) { kept = n; kept }
    fn get() { kept }
    fn far(n) { double(n) }
    fn ever() { loop { } }
    fn asks(n) { ask(n) + kept }
    fn catches(n) { let x = 0; try { x = ask(n); } catch (e) { x = e; } x }
    0";

/// How many runs may wait while another one is under way.
const RUNS: usize = 2;

/// What a run does when it goes on.
#[derive(Clone, Copy, Debug)]
enum Doing {
    Put(i64),
    Get,
    Far(i64),
    Ever,
    Asks(i64),
    Catches(i64),
    /// It returns the sum of the variable and this.
    Adds(i64),
    /// It returns this.
    Gives(i64),
    Fails,
}

impl Doing {
    fn by_chance(seed: &mut u64) -> Doing {
        let n = below(seed, 100) as i64;
        let all = [
            Doing::Put(n),
            Doing::Get,
            Doing::Far(n),
            Doing::Ever,
            Doing::Asks(n),
            Doing::Catches(n),
        ];
        all[below(seed, 6) as usize]
    }

    /// The call of the script that begins it.
    fn call(self) -> (&'static str, Vec<Value>) {
        match self {
            Doing::Put(n) => ("put", vec![n.into()]),
            Doing::Far(n) => ("far", vec![n.into()]),
            Doing::Asks(n) => ("asks", vec![n.into()]),
            Doing::Catches(n) => ("catches", vec![n.into()]),
            Doing::Ever => ("ever", vec![]),
            _ => ("get", vec![]),
        }
    }
}

/// How far a run is, without what a model doesn't know.
#[derive(Debug, PartialEq)]
enum Seen {
    Returned(i64),
    Calls(Value),
    Paused,
    Fault,
    Error(RunError),
}

impl From<RunError> for Seen {
    fn from(error: RunError) -> Seen {
        match error {
            RunError::Fault(_) => Seen::Fault,
            RunError::Paused => Seen::Paused,
            error => Seen::Error(error),
        }
    }
}

fn seen(step: Result<Step, RunError>) -> Seen {
    match step {
        Ok(Step::Returned(value)) => Seen::Returned(value.try_into().unwrap()),
        Ok(Step::Calls(mut call)) => Seen::Calls(call.arguments.remove(0)),
        Ok(_) => Seen::Paused,
        Err(error) => error.into(),
    }
}

fn seen_at_end(value: Result<i64, RunError>) -> Seen {
    value.map_or_else(Seen::from, Seen::Returned)
}

/// What a state is in the model: its variable, and its runs, each with whether it waits for an answer.
struct Model {
    kept: i64,
    runs: Vec<(Doing, bool)>,
}

impl Model {
    fn begin(&mut self, doing: Doing) -> Result<(), RunError> {
        let is_ready = matches!(self.runs.last(), Some((_, false)));
        if is_ready || self.runs.len() > RUNS {
            return Err(RunError::NotNow);
        }
        self.runs.push((doing, false));
        Ok(())
    }

    fn end(&mut self, seen: Seen) -> Seen {
        self.runs.pop();
        seen
    }

    fn step(&mut self, turns: u64) -> Seen {
        let Some((doing, waits)) = self.runs.last_mut() else {
            return Seen::Error(RunError::NotNow);
        };
        match *doing {
            Doing::Asks(n) | Doing::Catches(n) if *waits || turns > 0 => {
                *waits = true;
                Seen::Calls(n.into())
            }
            // How it ended is known already.
            Doing::Fails => self.end(Seen::Fault),
            _ if turns == 0 => Seen::Paused,
            Doing::Put(n) => {
                self.kept = n;
                self.end(Seen::Returned(n))
            }
            Doing::Far(n) => self.end(Seen::Returned(2 * n)),
            Doing::Adds(n) => self.end(Seen::Returned(n + self.kept)),
            Doing::Gives(n) => self.end(Seen::Returned(n)),
            Doing::Get => self.end(Seen::Returned(self.kept)),
            _ => Seen::Paused,
        }
    }

    /// Goes on without steps.
    fn go(&mut self) -> Seen {
        match self.step(1) {
            Seen::Calls(_) => self.end(Seen::Fault),
            seen => seen,
        }
    }

    fn resume(&mut self) -> Seen {
        match self.runs.last() {
            Some((_, false)) => self.go(),
            _ => Seen::Error(RunError::NotNow),
        }
    }

    fn answer(&mut self, answer: &Result<i64, HostError>) -> Result<(), RunError> {
        let Some((doing, waits @ true)) = self.runs.last_mut() else {
            return Err(RunError::NotNow);
        };
        *waits = false;
        *doing = match (*doing, answer) {
            (Doing::Asks(_), Ok(n)) => Doing::Adds(*n),
            (Doing::Catches(_), Ok(n)) => Doing::Gives(*n),
            (Doing::Catches(_), Err(HostError::Throw(Value::Int(n)))) => Doing::Gives(*n),
            _ => Doing::Fails,
        };
        Ok(())
    }
}

/// Makes a call at random of the state and of the model, and compares.
fn compare(state: &mut State, model: &mut Model, seed: &mut u64) {
    let n = below(seed, 100) as i64;
    match below(seed, 10) {
        0 | 1 => {
            let doing = Doing::by_chance(seed);
            let (name, arguments) = doing.call();
            let expected = match model.begin(doing) {
                Ok(()) => model.go(),
                Err(error) => error.into(),
            };
            assert_eq!(seen_at_end(state.call(name, arguments)), expected);
        }
        2 | 3 => {
            let doing = Doing::by_chance(seed);
            let (name, arguments) = doing.call();
            assert_eq!(state.start_call(name, arguments), model.begin(doing));
        }
        4 | 5 => {
            let turns = [0, 200, 200, 200][below(seed, 4) as usize];
            assert_eq!(seen(state.step(turns)), model.step(turns));
        }
        6 => {
            let answers = [
                Ok(n),
                Err(HostError::Throw(n.into())),
                Err(HostError::Fail("no".into())),
            ];
            let answer = &answers[below(seed, 3) as usize];
            assert_eq!(state.answer(answer.clone()), model.answer(answer));
        }
        7 => assert_eq!(seen_at_end(state.resume()), model.resume()),
        8 => {
            state.stop();
            model.runs.pop();
        }
        _ => {
            if below(seed, 20) == 0 {
                state.reset();
                model.runs.clear();
                assert_eq!(
                    state.get::<i64>("kept"),
                    Err(RunError::NoName("kept".into()))
                );
            }
            state.set("kept", n).unwrap();
            model.kept = n;
        }
    }
    assert_eq!(state.get::<i64>("kept"), Ok(model.kept));
}

#[test]
fn calls_in_any_order_agree_with_a_model() {
    let mut engine = declaring();
    engine.bounds(Bounds::new().turns(200).runs(RUNS));
    let script = engine.compile(MODELLED).unwrap();
    for mut seed in 0..1000 {
        let mut state = engine.state(&script).unwrap();
        state.set("kept", 0).unwrap();
        let mut model = Model {
            kept: 0,
            runs: vec![],
        };
        for _ in 0..80 {
            compare(&mut state, &mut model, &mut seed);
        }
    }
}
