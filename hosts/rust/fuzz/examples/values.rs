//! Any bytes as calls of a state, with values for them: values that go in come out again, whatever happens a later call of the
//! state succeeds, and nothing leaks. In part of the runs an allocation of the library is refused, and in part blocks are fenced.
use grain::engine::{Bounds, Engine, Foreign, HostError, RunError, Script, State, Step, Value};
use grain_fuzz::{fence, granting_library, live};
use std::cell::{Cell, RefCell};
use std::collections::BTreeMap;
use std::slice;

/// One run of this many has fenced blocks.
const FENCED_OF: usize = 16;
/// One run of this many has an allocation refused.
const REFUSED_OF: usize = 4;
/// How deep values of the input are nested at most. The bound of a state is less.
const DEEPEST: usize = 6;
const CALLS: usize = 40;

const SCRIPT: &str = "
    fn same(x) { x } fn ask(x) { host(x) } fn caught(x) { try { host(x) } catch (e) { e } } fn wait(x) { later(x) }
    fn method(x) { x.change(); x } fn say(x) { print(x); shown = x; shown } fn spin(x) { loop { } } fn twice(x) { [x, x] }
    fn deep(x) { deep([x]) } fn throws(x) { throw x }
    host(1)
";
const FUNCTIONS: [&str; 11] = [
    "same", "ask", "caught", "wait", "method", "say", "spin", "deep", "twice", "throws", "none",
];

/// What is left of the input.
#[derive(Default)]
struct Input(std::vec::IntoIter<u8>);

thread_local! {
    static INPUT: RefCell<Input> = RefCell::default();
    static RUNS: Cell<usize> = const { Cell::new(0) };
    /// An engine and a script of it.
    static MADE: (Engine, Script) = made();
    /// How many blocks there are without a state.
    static KEPT: Cell<Option<usize>> = const { Cell::new(None) };
}

/// The next byte, and 0 after the last.
fn byte() -> u8 {
    INPUT.with_borrow_mut(|input| input.0.next().unwrap_or_default())
}

fn is_at_end() -> bool {
    INPUT.with_borrow(|input| input.0.as_slice().is_empty())
}

fn text() -> String {
    let chars = ['a', 'é', '\0', '"', '€', '\u{10ffff}'];
    (0..byte() % 6)
        .map(|_| chars[usize::from(byte()) % chars.len()])
        .collect()
}

fn items(depth: usize) -> Vec<Value> {
    (0..byte() % 4).map(|_| value(depth + 1)).collect()
}

fn value(depth: usize) -> Value {
    let kinds = if depth < DEEPEST { 12 } else { 7 };
    match byte() % kinds {
        0 => Value::Unit,
        1 => Value::Bool(byte() % 2 == 0),
        2 => Value::Int(i64::from(byte() as i8) << (byte() % 57)),
        3 => Value::Char(char::from(byte())),
        4 => Value::Text(text()),
        5 => Value::Blob((0..byte() % 5).map(|_| byte()).collect()),
        6 => Value::Foreign(Foreign {
            kind: byte().into(),
            number: -i64::from(byte()),
        }),
        7 => Value::Range {
            from: byte().into(),
            to: byte().into(),
            inclusive: byte() % 2 == 0,
        },
        8 => Value::Array(items(depth)),
        9 => Value::Function {
            name: text(),
            bound: items(depth),
        },
        _ => Value::Map(
            (0..byte() % 4)
                .map(|_| (text(), value(depth + 1)))
                .collect::<BTreeMap<_, _>>(),
        ),
    }
}

/// A function of the host, which does what the input says.
fn host(state: &mut State, argument: Value) -> Result<Value, HostError> {
    match byte() % 6 {
        0 => Err(HostError::Throw(value(0))),
        1 => Err(HostError::Fail(text())),
        2 => {
            call(state);
            Ok(argument)
        }
        3 => {
            let _ = state.start_call("same", (argument,));
            Ok(Value::Unit)
        }
        4 => Ok(value(0)),
        _ => Ok(argument),
    }
}

fn made() -> (Engine, Script) {
    let bounds = Bounds::new()
        .turns(1000)
        .calls(12)
        .runs(3)
        .value_size(200)
        .value_depth(8)
        .printed(200)
        .memory(1 << 18);
    let mut engine = Engine::new();
    engine
        .bounds(bounds)
        .register("host", host)
        .declare("later", 1)
        .register_method("change", |this: &mut Value| *this = value(0));
    let script = engine.compile(SCRIPT).expect("the script is compiled");
    (engine, script)
}

/// A value that goes in comes out again.
fn send(state: &mut State) {
    let sent = value(0);
    match state.call::<Value>("same", (sent.clone(),)) {
        Ok(back) => assert_eq!(back, sent),
        Err(error) => assert!(
            matches!(
                error,
                RunError::NotNow | RunError::OutOfMemory | RunError::BadValue
            ),
            "{sent:?}: {error}"
        ),
    }
}

fn steps(state: &mut State) {
    let name = FUNCTIONS[usize::from(byte()) % FUNCTIONS.len()];
    let _ = state.start_call(name, (value(0),));
    for _ in 0..byte() % 8 {
        let turns = u64::from(byte());
        match state.step(turns) {
            Ok(Step::Calls(call)) => {
                assert_eq!((&*call.name, call.arguments.len()), ("later", 1));
                if byte() % 2 == 0 {
                    let _ = state.answer(value(0));
                }
            }
            Ok(_) => {}
            Err(error) => assert!(!error.to_string().is_empty()),
        }
    }
}

/// One call of a state.
fn call(state: &mut State) {
    match byte() % 11 {
        0 => drop(state.run::<Value>()),
        1 | 2 => {
            let name = FUNCTIONS[usize::from(byte()) % FUNCTIONS.len()];
            let _ = state.call::<Value>(name, (value(0),));
        }
        3 => send(state),
        4 => steps(state),
        5 => drop(state.resume::<Value>()),
        6 => {
            let sent = value(0);
            if state.set("shown", sent.clone()).is_ok() {
                match state.get::<Value>("shown") {
                    Ok(back) => assert_eq!(back, sent),
                    Err(error) => assert!(matches!(error, RunError::OutOfMemory), "{error}"),
                }
            }
        }
        7 => drop((state.set_receiver(value(0)), state.answer(value(0)))),
        8 => drop(state.dropped()),
        9 => {
            state.stop();
            assert!(state.take_printed().len() <= 200);
        }
        _ => state.reset(),
    }
}

/// Whatever happened, a state that is reset runs a function.
fn calls(engine: &Engine, script: &Script, granted: Option<usize>) {
    let Ok(mut state) = engine.state(script) else {
        panic!("no state");
    };
    let all = |state: &mut State| {
        for _ in 0..CALLS {
            if is_at_end() {
                break;
            }
            call(state);
            assert!(state.memory() <= 1 << 18);
        }
    };
    match granted {
        Some(count) => granting_library(count, || all(&mut state)),
        None => all(&mut state),
    }
    state.reset();
    assert_eq!(state.call::<i64>("same", (7,)).ok(), Some(7));
}

#[no_mangle]
unsafe extern "C" fn LLVMFuzzerTestOneInput(bytes: *const u8, len: usize) -> i32 {
    let run = RUNS.get();
    RUNS.set(run + 1);
    let given = if len == 0 {
        &[][..]
    } else {
        // SAFETY: the fuzzer's input has as many bytes, and lives for the call.
        unsafe { slice::from_raw_parts(bytes, len) }
    };
    MADE.with(|(engine, script)| {
        INPUT.set(Input(Vec::from(given).into_iter()));
        let granted = (run % REFUSED_OF == 1).then(|| usize::from(byte()));
        fence(run % FENCED_OF == 0);
        calls(engine, script, granted);
        fence(false);
    });
    INPUT.set(Input::default());
    let kept = KEPT.get().unwrap_or(live());
    KEPT.set(Some(kept));
    assert!(live() <= kept, "{} blocks are left, {kept} before", live());
    0
}
