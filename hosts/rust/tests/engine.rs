//! Scripts in this process: states, functions of the host, bounds, and threads.
use grain::engine::{
    Bounds, CompileError, Engine, FaultKind, HostError, Interrupt, LoadError, RunError, Script,
    State, Value, WrongType,
};
use grain::{FileError, Limits};
use std::collections::HashMap;
use std::error::Error;
use std::panic::{catch_unwind, AssertUnwindSafe};
use std::thread;
use std::time::Duration;

fn engine() -> Engine {
    let mut engine = Engine::new();
    engine.register("double", |n: i64| n * 2);
    engine
}

fn state(engine: &Engine, text: &str) -> State {
    engine.state(&engine.compile(text).unwrap()).unwrap()
}

#[test]
fn variables_stay_between_calls_and_functions_call_back() {
    let mut engine = engine();
    engine.register(
        "twice",
        |state: &mut State, n: i64| -> Result<i64, RunError> {
            let once: i64 = state.call("step", (n,))?;
            state.call("step", (once,))
        },
    );
    let mut state = state(&engine, "fn step(n) { double(n) + offset } twice(1)");
    state.set("offset", 1).unwrap();
    assert_eq!(state.run::<i64>(), Ok(7));
    state.set("offset", 0).unwrap();
    assert_eq!(state.run::<i64>(), Ok(4));
    assert_eq!(state.get::<i64>("offset"), Ok(0));
    let wrong = WrongType {
        wanted: "string",
        found: "i64",
    };
    assert_eq!(
        state.call::<String>("step", (1,)),
        Err(RunError::Type(wrong))
    );
    assert_eq!(
        state.call::<i64>("step", (1, 2)),
        Err(RunError::NoName("step".into()))
    );
}

#[test]
fn errors_and_faults_have_lines() {
    let engine = engine();
    let Err(CompileError::Script(report)) = engine.compile("let x = 1;\nlet y = ;") else {
        panic!("compiled");
    };
    assert!(report.starts_with("script:2:9: error"), "{report}");
    let mut state = state(&engine, "fn f(n) {\n  1 / n\n}\nf(0)");
    let Err(RunError::Fault(fault)) = state.run::<i64>() else {
        panic!("returned");
    };
    assert!(
        fault.text().contains("(line 2, position 5)")
            && fault.text().contains("called from main:4:1"),
        "{fault}"
    );
}

const SHAPES: &str = "
import \"numbers\" as n;
export const UNIT = 1;
fn area(a, b) { n::least(a * b, 20) }
fn double_area(a, b) { double(a * b) }
fn failing() { 1 / 0 }";
const NUMBERS: &str = "fn least(x, y) { if x < y { x } else { y } }";

#[test]
fn scripts_import_modules_of_the_host() {
    let engine = engine();
    let text = "import \"shapes\" as s; fn f(n) { s::area(n, 3) + s::UNIT } f(2)";
    let listed = [("shapes", SHAPES), ("numbers", NUMBERS), ("unused", "a b")];
    let script = engine.compile_with_modules(text, listed).unwrap();
    let mut state = engine.state(&script).unwrap();
    assert_eq!(state.run::<i64>(), Ok(7));
    assert_eq!(state.call::<i64>("f", (9,)), Ok(21));
    // A map has the same modules, and the program is the same. So is that of its file, which needs none.
    let owned: HashMap<String, String> = listed
        .iter()
        .map(|(name, text)| (name.to_string(), text.to_string()))
        .collect();
    assert_eq!(
        engine.compile_with_modules(text, &owned).as_ref(),
        Ok(&script)
    );
    let loaded = engine.load(script.as_bytes()).unwrap();
    assert_eq!(engine.state(&loaded).unwrap().run::<i64>(), Ok(7));
    // Modules call functions of the host, and their faults name their functions.
    let text = "import \"shapes\" as s;\nprint(s::double_area(2, 3));\ns::failing()";
    let script = engine.compile_with_modules(text, owned).unwrap();
    let mut state = engine.state(&script).unwrap();
    let Err(RunError::Fault(fault)) = state.run::<i64>() else {
        panic!("returned");
    };
    assert_eq!(state.take_printed(), "12\n");
    let calls = "\n  in shapes::failing\n  called from main:3:1";
    assert!(fault.text().ends_with(calls), "{fault}");
}

/// The report of a script that imports `a`, with these modules.
fn report(modules: &[(&str, &str)]) -> String {
    let text = "import \"a\" as a; a::f()";
    match Engine::new().compile_with_modules(text, modules.iter().copied()) {
        Err(CompileError::Script(report)) => report,
        other => panic!("{other:?}"),
    }
}

#[test]
fn errors_of_modules_name_the_module() {
    let unknown = "error: there is no module of this name";
    let calls = "\nimport \"b\" as b;\nfn f() { b::g() }";
    let cases: [(&[(&str, &str)], &str); 7] = [
        (&[], &format!("script:1:8: {unknown}\n")),
        (&[("b", "")], &format!("script:1:8: {unknown}\n")),
        (
            &[("a", calls)],
            &format!("a:2:8: {unknown}\n  import \"b\" as b;\n         ^\n"),
        ),
        (
            &[("b", "fn g() {\n let x = ;"), ("a", calls)],
            "b:2:10: error: an expression is expected here\n",
        ),
        (
            &[("b", "fn h() { }"), ("a", calls)],
            "a:3:10: error: the module has no public function",
        ),
        (
            &[("a", "fn f() { 1 }"), ("b", ""), ("a", "")],
            "a: error: two modules have this name\n",
        ),
        (
            &[("a\nb", ""), ("a\nb", "")],
            "a\\u{a}b: error: two modules have this name\n",
        ),
    ];
    for (modules, wanted) in cases {
        let report = report(modules);
        assert!(report.starts_with(wanted), "{report} is not {wanted}");
    }
}

/// Names of strangers: many of them, which differ only at their ends.
#[test]
fn many_modules_are_found_by_their_names() {
    let names: Vec<String> = (0..20_000)
        .map(|n| format!("{}{n}", "x".repeat(100)))
        .collect();
    let modules = names.iter().map(|name| (name, "fn f() { 5 }"));
    let text = format!("import \"{}\" as m; m::f()", names[12_345]);
    let engine = Engine::new();
    let script = engine.compile_with_modules(&text, modules).unwrap();
    assert_eq!(engine.state(&script).unwrap().run::<i64>(), Ok(5));
}

/// Variables of the top level can be read when its run has ended, and until the next one begins.
#[test]
fn variables_of_the_top_level_stay_to_be_read() {
    let engine = engine();
    let text = "
        fn f() { let inner = 1; inner }
        fn g() { a }
        let a = 1;
        { let hidden = 5; }
        for i in 0..3 { let b = i; if b == 1 { break; } let c = 2; }
        let b = [a, f()];
        let a = 3;
        let add = |n| { b.push(n); };
        add.call(7);
        if again == 1 { throw 9 }
        let late = 4;
    ";
    let mut state = state(&engine, text);
    state.set("again", 0).unwrap();
    assert!(state.get::<Value>("a").is_err());
    assert_eq!(state.run::<()>(), Ok(()));
    assert_eq!(state.get("a"), Ok(3));
    assert_eq!(state.get::<Vec<i64>>("b"), Ok(vec![1, 1, 7]));
    assert_eq!(state.get("late"), Ok(4));
    for none in ["hidden", "i", "c", "inner"] {
        assert!(state.get::<Value>(none).is_err(), "{none}");
    }
    assert_eq!(state.call("f", ()), Ok(1));
    assert!(state.call::<Value>("g", ()).is_err());
    assert_eq!(state.get("a"), Ok(3));
    state.set("again", 1).unwrap();
    assert!(state.run::<()>().is_err());
    assert_eq!(state.get("a"), Ok(3));
    assert!(state.get::<Value>("late").is_err());
    state.reset();
    assert!(state.get::<Value>("a").is_err());
}

#[test]
fn faults_have_kinds() {
    let mut engine = engine();
    engine
        .bounds(Bounds::new().calls(10).value_size(100))
        .register("get", |_: String| -> Result<i64, HostError> {
            Err(HostError::Fail("no network".into()))
        });
    let cases = [
        ("throw #{ a: [1] }", FaultKind::Thrown),
        ("missing", FaultKind::NoVariable),
        ("missing(1)", FaultKind::NoFunction),
        ("let x = 1; x.missing", FaultKind::NoProperty),
        ("let x = 9223372036854775807; x + 1", FaultKind::Overflow),
        ("1 % 0", FaultKind::DivisionByZero),
        ("let x = [1]; x[1]", FaultKind::OutOfBounds),
        ("fn f() { this } f()", FaultKind::NoThis),
        ("fn f() { f() } f()", FaultKind::TooDeep),
        (
            "let x = \"123456789\"; loop { x += x }",
            FaultKind::TooLarge,
        ),
        ("if 1 { }", FaultKind::WrongType),
        ("get(\"c\")", FaultKind::Host),
    ];
    for (text, kind) in cases {
        match state(&engine, text).run::<Value>() {
            Err(RunError::Fault(fault)) => {
                assert_eq!(fault.kind(), kind, "{text}: {fault}");
                assert_eq!(fault.position().map(|(line, _)| line), Some(1), "{text}");
                assert_eq!(fault.thrown().is_some(), kind == FaultKind::Thrown);
            }
            other => panic!("{text}: {other:?}"),
        }
    }
}

/// What a nested run throws is shown while the outer run waits, and a value that closures share is not.
#[test]
fn what_was_thrown_is_shown() {
    let mut engine = engine();
    engine.register("again", |state: &mut State, n: i64| {
        match state.call::<Value>("fails", (n,)) {
            Err(RunError::Fault(fault)) => fault.thrown().cloned().unwrap_or_default(),
            other => panic!("{other:?}"),
        }
    });
    let text = "fn fails(n) { throw n + 1 } again(3) + again(4)";
    assert_eq!(state(&engine, text).run::<i64>(), Ok(9));
    let shared = "let x = 1; let f = || x; throw f";
    match state(&engine, shared).run::<Value>() {
        Err(RunError::Fault(fault)) => {
            assert_eq!((fault.kind(), fault.thrown()), (FaultKind::Thrown, None));
        }
        other => panic!("{other:?}"),
    }
}

#[test]
fn a_script_catches_what_is_thrown_and_not_what_fails() {
    let mut engine = engine();
    engine.register("fetch", |name: String| match name.as_str() {
        "a" => Ok(7),
        "b" => Err(HostError::Throw(format!("no {name}").into())),
        _ => Err(HostError::Fail("no network".into())),
    });
    let mut state = state(
        &engine,
        "fn get(key) { let x = 0; try { x = fetch(key); } catch (e) { x = e; } x } 0",
    );
    assert_eq!(state.call::<i64>("get", ("a",)), Ok(7));
    assert_eq!(state.call::<String>("get", ("b",)), Ok("no b".into()));
    assert!(
        matches!(state.call::<i64>("get", ("c",)), Err(RunError::Fault(fault)) if fault.text().contains("no network"))
    );
    assert_eq!(
        state.call::<String>("get", (1,)),
        Ok("expected string, found i64".into())
    );
}

#[test]
fn turns_calls_values_and_an_interrupt_bound_a_run() {
    let mut engine = engine();
    let mut bounds = Bounds::default();
    (bounds.turns, bounds.calls, bounds.value_size) = (10_000, 50, 1000);
    engine.bounds(bounds);
    let text = "fn deep(n) { deep(n) } fn ever() { loop { } } fn long() { let s = \"x\"; loop { s += s } } 1";
    let mut state = state(&engine, text);
    assert!(matches!(
        state.call::<i64>("deep", (1,)),
        Err(RunError::Fault(_))
    ));
    assert!(matches!(
        state.call::<i64>("long", ()),
        Err(RunError::Fault(_))
    ));
    assert_eq!(state.call::<i64>("ever", ()), Err(RunError::Paused));
    assert_eq!(state.run::<i64>(), Err(RunError::NotNow));
    let used = state.used();
    assert_eq!(state.resume::<i64>(), Err(RunError::Paused));
    assert_eq!(state.used(), used + 10_000);
    state.stop();
    assert_eq!(state.run::<i64>(), Ok(1));

    let mut engine = Engine::new();
    engine.bounds(Bounds::default());
    let interrupt = engine.interrupt();
    let mut endless = engine.state(&engine.compile("loop { }").unwrap()).unwrap();
    thread::spawn(move || {
        thread::sleep(Duration::from_millis(20));
        interrupt.raise();
    });
    assert_eq!(endless.run::<()>(), Err(RunError::Paused));
}

#[test]
fn a_panic_of_a_closure_ends_the_run_and_not_the_state() {
    let mut engine = engine();
    engine.register("boom", || -> i64 { panic!("boom") });
    let mut state = state(&engine, "fn f() { boom() } fn g() { double(3) } 5");
    let panicked = catch_unwind(AssertUnwindSafe(|| state.call::<i64>("f", ())));
    assert!(panicked.is_err());
    assert_eq!(state.call::<i64>("g", ()), Ok(6));
    assert_eq!(state.run::<i64>(), Ok(5));
}

/// Each thread makes states of one script and frees them, and the script is dropped meanwhile.
#[test]
fn scripts_are_shared_by_threads() {
    let engine = engine();
    let script = engine.compile("fn f(n) { double(n) } 0").unwrap();
    let threads: Vec<_> = (0..4i64)
        .map(|k| {
            let (engine, script) = (engine.clone(), script.clone());
            thread::spawn(move || {
                let mut last = engine.state(&script).unwrap();
                for n in 0..100 {
                    let mut state = engine.state(&script).unwrap();
                    assert_eq!(state.call::<i64>("f", (n + k,)), Ok(2 * (n + k)));
                    assert_eq!(last.call::<i64>("f", (n,)), Ok(2 * n));
                    last = state;
                }
                drop(script);
                last.call::<i64>("f", (k,))
            })
        })
        .collect();
    drop(script);
    for (k, thread) in (0..4i64).zip(threads) {
        assert_eq!(thread.join().unwrap(), Ok(2 * k));
    }
}

#[test]
fn scripts_are_loaded_again() {
    let engine = engine();
    let script = engine.compile("fn f(n) { double(n) } f(4)").unwrap();
    let loaded: Script = engine.load(script.as_bytes()).unwrap();
    assert_eq!(loaded, script);
    assert_eq!(engine.state(&loaded).unwrap().run::<i64>(), Ok(8));
    assert!(matches!(engine.load(b"nothing"), Err(LoadError::File(_))));
    assert_eq!(engine.eval::<i64>("double(1) + 1").unwrap(), 3);
}

#[test]
fn output_is_kept_until_it_is_taken() {
    let mut state = state(&engine(), "print(1); print(\"two\"); 3");
    assert_eq!(state.run::<i64>(), Ok(3));
    assert_eq!(state.take_printed(), "1\ntwo\n");
    assert_eq!(state.take_printed(), "");
}

#[test]
fn bounds_and_an_interrupt_are_values() {
    let bounds = Bounds::new()
        .turns(1)
        .calls(2)
        .runs(3)
        .value_size(4)
        .value_depth(5)
        .printed(6)
        .memory(7);
    let all = (bounds.turns, bounds.calls, bounds.runs);
    assert_eq!(all, (1, 2, 3));
    let all = (bounds.value_size, bounds.value_depth);
    assert_eq!(all, (4, 5));
    assert_eq!((bounds.printed, bounds.memory), (6, 7));
    assert_eq!(Bounds::new(), Bounds::default());
    let interrupt = Interrupt::default();
    assert!(!interrupt.is_raised());
    interrupt.clone().raise();
    assert!(interrupt.is_raised());
    interrupt.clear();
    assert!(!interrupt.is_raised());
    let mut engine = Engine::new();
    engine.bounds(Bounds::new().value_depth(257));
    assert_eq!(engine.compile("1"), Err(CompileError::BadLimit));
    let modules = [("a", "")];
    let compiled = engine.compile_with_modules("1", modules);
    assert_eq!(compiled, Err(CompileError::BadLimit));
}

#[test]
fn a_state_takes_no_more_memory_than_its_bounds_say() {
    let text = "fn fill() { let a = []; loop { a.push([a.len()]); } } fn one() { 1 } 0";
    let mut engine = Engine::new();
    engine.bounds(Bounds::new().memory(1 << 20));
    let mut state = state(&engine, text);
    let before = state.memory();
    for _ in 0..2 {
        match state.call::<()>("fill", ()) {
            Err(RunError::OutOfMemory) => {}
            Err(RunError::Fault(fault)) => {
                assert!(fault.text().starts_with("Out of memory"), "{fault}")
            }
            other => panic!("{other:?}"),
        }
        assert!(state.memory() <= 1 << 20);
        assert_eq!(state.call::<i64>("one", ()), Ok(1));
    }
    state.reset();
    assert!(0 < before && state.memory() < before + 4096);
    engine.bounds(Bounds::new().memory(1000));
    assert_eq!(engine.compile(text), Err(CompileError::OutOfMemory));
    let compiled = engine.compile_with_modules("1", vec![("a", ""); 100]);
    assert_eq!(compiled, Err(CompileError::OutOfMemory));
}

#[test]
fn errors_say_why_and_have_sources() {
    let bad = grain::ProgramFile::read(b"nothing", &Limits::new()).unwrap_err();
    let load = LoadError::from(bad);
    assert!(load.source().is_some_and(|source| source.is::<FileError>()));
    let wrong = WrongType {
        wanted: "i64",
        found: "bool",
    };
    let run = RunError::from(wrong);
    assert!(run.source().is_some_and(|source| source.is::<WrongType>()));
    assert_eq!(run.to_string(), "expected i64, found bool");
    let thrown = HostError::from(wrong);
    assert_eq!(thrown.to_string(), run.to_string());
    assert!(matches!(thrown, HostError::Throw(_)));
    assert!(matches!(HostError::from(run), HostError::Fail(_)));
    assert!(RunError::Stopped.source().is_none() && LoadError::TooMuchWork.source().is_none());
}

#[test]
fn threads_share_all_but_states() {
    fn is_shared<T: Send + Sync + 'static>() {}
    is_shared::<(Engine, Script, Bounds, Interrupt, Value)>();
    is_shared::<(CompileError, LoadError, RunError, HostError, WrongType)>();
}
