//! Values of scripts and of Rust.
use grain::engine::{Engine, Foreign, FromValue, IntoArguments, RunError, State, Value, WrongType};
use std::collections::{BTreeMap, HashMap, HashSet};
use std::fmt::Debug;

/// A state whose script has a function that returns its argument.
fn same() -> State {
    let engine = Engine::new();
    let script = engine.compile("fn same(x) { x } 0").unwrap();
    engine.state(&script).unwrap()
}

#[test]
fn values_cross_both_ways() {
    let mut state = same();
    let value = Value::Array(vec![
        Value::Unit,
        true.into(),
        (-3).into(),
        2.5.into(),
        'é'.into(),
        "text".into(),
        Value::Range {
            from: 1,
            to: 2,
            inclusive: true,
        },
        Value::Blob(vec![1, 2]),
        Value::Map(
            [
                ("a".to_string(), Value::Array(vec![])),
                ("b".to_string(), "x".into()),
            ]
            .into(),
        ),
        Value::Function {
            name: "f".into(),
            bound: vec![1.into()],
        },
        Foreign {
            kind: i64::MIN,
            number: i64::MAX,
        }
        .into(),
    ]);
    assert_eq!(state.call::<Value>("same", vec![value.clone()]), Ok(value));
    let mut deep = Value::Unit;
    for _ in 0..100 {
        deep = Value::Array(vec![deep]);
    }
    assert_eq!(
        state.call::<Value>("same", vec![deep]),
        Err(RunError::BadValue)
    );
}

/// Scripts tell values of the host apart, can't make one, and the state says which are gone.
#[test]
fn values_of_the_host_are_counted() {
    let of = |number: i64| Foreign { kind: 1, number };
    let engine = Engine::new();
    let text = "
        fn keep(x) { kept = x; type_of(x) }
        fn is_kept(x) { x == kept }
        fn pair(x) { kept = #{ a: [x], f: Fn(\"pair\").curry(x) }; }
        fn switched(x) { switch x { 0..100 => 1, 9 => 2, _ => 3 } }
        kept = ();
    ";
    let mut state = engine.state(&engine.compile(text).unwrap()).unwrap();
    state.set("kept", ()).unwrap();
    assert_eq!(state.call::<String>("keep", (of(7),)), Ok("foreign".into()));
    assert_eq!(state.call::<bool>("is_kept", (of(7),)), Ok(true));
    assert_eq!(state.call::<bool>("is_kept", (of(8),)), Ok(false));
    assert_eq!(state.call::<i64>("switched", (of(9),)), Ok(3));
    assert_eq!(state.dropped(), Ok(vec![of(7), of(8), of(9)]));
    assert_eq!(state.dropped(), Ok(vec![]));
    assert_eq!(state.get::<Foreign>("kept"), Ok(of(7)));
    assert_eq!(
        state.get::<Value>("kept").unwrap().to_string(),
        "foreign(1, 7)"
    );
    assert_eq!(state.call::<()>("pair", (of(3),)), Ok(()));
    assert_eq!(state.dropped(), Ok(vec![of(7)]));
    // What is refused was never passed.
    assert!(state.call::<()>("absent", (of(5),)).is_err());
    assert!(state.set("absent", of(5)).is_err());
    assert_eq!(state.dropped(), Ok(vec![]));
    state.set("kept", ()).unwrap();
    assert_eq!(state.dropped(), Ok(vec![of(3)]));
    state.set("kept", vec![of(4), of(4)]).unwrap();
    state.reset();
    assert_eq!(state.dropped(), Ok(vec![of(4), of(4)]));
}

/// Whether a value of Rust is this one of scripts, and is itself again, also after a script had it.
fn returns<T>(state: &mut State, rust: T, value: Value)
where
    T: Clone + Debug + PartialEq + FromValue + Into<Value>,
{
    assert_eq!(rust.clone().into(), value);
    assert_eq!(T::from_value(value), Ok(rust.clone()));
    assert_eq!(state.call::<T>("same", (rust.clone(),)), Ok(rust));
}

#[test]
fn values_of_rust_return() {
    let state = &mut same();
    returns(state, (), Value::Unit);
    returns(state, true, Value::Bool(true));
    returns(state, i64::MIN, Value::Int(i64::MIN));
    returns(state, -7i8, Value::Int(-7));
    returns(state, -7i16, Value::Int(-7));
    returns(state, -7i32, Value::Int(-7));
    returns(state, 7u16, Value::Int(7));
    returns(state, u32::MAX, Value::Int(i64::from(u32::MAX)));
    returns(state, 0.1, Value::Float(0.1));
    returns(
        state,
        f64::MIN_POSITIVE / 2.0,
        Value::Float(f64::MIN_POSITIVE / 2.0),
    );
    returns(state, f64::NEG_INFINITY, Value::Float(f64::NEG_INFINITY));
    returns(state, 'é', Value::Char('é'));
    returns(state, "é".to_string(), Value::Text("é".into()));
    returns(state, Some(3i64), Value::Int(3));
    returns(state, None::<i64>, Value::Unit);
    returns(state, vec![0u8, 255], Value::Blob(vec![0, 255]));
    returns(state, vec![1i64, 2], Value::Array(vec![1.into(), 2.into()]));
    let nested = Value::Array(vec![Value::Array(vec!['a'.into()]), Value::Array(vec![])]);
    returns(state, vec![vec!['a'], vec![]], nested);
    let map: BTreeMap<String, Value> = [("a".to_string(), Value::Bool(true))].into();
    returns(state, map.clone(), Value::Map(map.clone()));
    returns(
        state,
        BTreeMap::from([("a".to_string(), true)]),
        Value::Map(map.clone()),
    );
    returns(
        state,
        HashMap::from([("a".to_string(), true)]),
        Value::Map(map),
    );
    let range = |inclusive| Value::Range {
        from: -1,
        to: 3,
        inclusive,
    };
    returns(state, -1..3, range(false));
    returns(state, -1..=3, range(true));
    assert_eq!(Value::from(["a", "b"]), Value::from(vec!["a", "b"]));
    assert_eq!(Value::from(&"a".to_string()), Value::from("a"));
}

/// The bits of a number cross, its sign among them; of NaN there is one.
#[test]
fn floats_keep_their_bits() {
    let state = &mut same();
    for number in [
        0.0,
        -0.0,
        1.5,
        -1.5,
        f64::MAX,
        f64::from_bits(1),
        f64::INFINITY,
    ] {
        let found: f64 = state.call("same", (number,)).unwrap();
        assert_eq!(found.to_bits(), number.to_bits());
    }
    let quiet = 0x7ff8 << 48;
    for bits in [quiet, quiet | 1 << 63, quiet | 7, (0x7ff0 << 48) | 1] {
        let found: f64 = state.call("same", (f64::from_bits(bits),)).unwrap();
        assert_eq!(found.to_bits(), quiet);
    }
}

/// Values can be keys: NaN is equal to itself, and equal values have equal hashes.
#[test]
fn floats_are_equal_as_numbers() {
    let float = |number: f64| Value::from(number);
    assert_eq!(float(0.0), float(-0.0));
    assert_eq!(float(f64::NAN), float(-f64::NAN));
    assert_ne!(float(f64::NAN), float(0.0));
    assert_ne!(float(1.0), Value::from(1));
    assert_eq!(
        Value::from(vec![0.0, f64::NAN]),
        vec![-0.0, f64::NAN].into()
    );
    let keys: HashSet<Value> = [0.0, -0.0, f64::NAN, -f64::NAN, 1.0].map(float).into();
    assert_eq!(keys.len(), 3);
    let all: HashSet<Value> = [1.into(), 1.0.into(), "1".into(), '1'.into(), true.into()].into();
    assert!(all.contains(&float(1.0)) && all.contains(&Value::from(1)) && all.len() == 5);
}

/// Functions of the host take floats and return them. An integer is no float.
#[test]
fn functions_have_floats() {
    let mut engine = Engine::new();
    engine.register("half", |x: f64| x / 2.0);
    engine.register("root", |x: f64| x.sqrt());
    engine.register("whole", |x: f64| x as i64);
    assert_eq!(engine.eval::<f64>("half(3.0) + 1").unwrap(), 2.5);
    assert_eq!(engine.eval::<i64>("whole(half(-7.5))").unwrap(), -3);
    assert!(engine.eval::<f64>("root(-1.0)").unwrap().is_nan());
    assert!(engine.eval::<f64>("half(-0.0)").unwrap().is_sign_negative());
    assert!(engine.eval::<f64>("half(3)").is_err());
    assert_eq!(
        engine.eval::<Vec<f64>>("[0.5, half(1e300)]").unwrap(),
        [0.5, 5e299]
    );
}

fn wrong<T>(wanted: &'static str, found: &'static str) -> Result<T, WrongType> {
    Err(WrongType { wanted, found })
}

#[test]
fn other_types_are_refused() {
    assert_eq!(i64::try_from(Value::Unit), wrong("i64", "()"));
    assert_eq!(bool::try_from(Value::Int(1)), wrong("bool", "i64"));
    assert_eq!(u16::try_from(Value::Int(-1)), wrong("u16", "i64"));
    assert_eq!(usize::try_from(Value::Int(-1)), wrong("usize", "i64"));
    assert_eq!(u64::try_from(Value::Int(5)), Ok(5));
    assert_eq!(i8::try_from(Value::Int(128)), wrong("i8", "i64"));
    assert_eq!(f64::try_from(Value::Int(1)), wrong("f64", "i64"));
    assert_eq!(i64::try_from(Value::Float(1.0)), wrong("i64", "f64"));
    assert_eq!(String::try_from(Value::Char('a')), wrong("string", "char"));
    assert_eq!(<()>::try_from(Value::Bool(true)), wrong("()", "bool"));
    let mixed = Value::from(vec![Value::Int(1), Value::Unit]);
    assert_eq!(Vec::<i64>::try_from(mixed.clone()), wrong("i64", "()"));
    assert_eq!(Vec::<u8>::try_from(mixed.clone()), wrong("blob", "array"));
    assert_eq!(
        BTreeMap::<String, i64>::try_from(mixed),
        wrong("map", "array")
    );
    let range = Value::from(1..2);
    assert_eq!(
        <std::ops::RangeInclusive<i64>>::try_from(range),
        wrong("range=", "range")
    );
    assert_eq!(
        <std::ops::Range<i64>>::from_value(Value::from(1..=2)),
        wrong("range", "range=")
    );
    let found = same().call::<bool>("same", (1,));
    assert_eq!(
        found,
        Err(RunError::Type(wrong::<()>("bool", "i64").unwrap_err()))
    );
}

#[test]
fn types_and_texts_are_those_of_scripts() {
    let function = Value::Function {
        name: "f".into(),
        bound: vec![1.into()],
    };
    let entries: BTreeMap<String, Value> = [
        ("b c".to_string(), ().into()),
        ("a".to_string(), "x".into()),
    ]
    .into();
    let values: Vec<Value> = vec![
        ().into(),
        true.into(),
        (-3).into(),
        0.1.into(),
        (-3.0).into(),
        (-0.0).into(),
        1e13.into(),
        2e13.into(),
        1e-7.into(),
        9e-8.into(),
        f64::NAN.into(),
        f64::INFINITY.into(),
        f64::NEG_INFINITY.into(),
        vec![1.0, f64::MAX].into(),
        'c'.into(),
        "it's \"so\"\n".into(),
        (1..4).into(),
        (1..=4).into(),
        vec![Value::Unit, "a".into(), 'b'.into(), Value::from([1, 2])].into(),
        entries.into(),
        Value::Array(vec![]),
        function,
    ];
    let engine = Engine::new();
    let text = "fn kind(x) { type_of(x) } fn shown(x) { print(x); } 0";
    let mut state = engine.state(&engine.compile(text).unwrap()).unwrap();
    for value in values {
        let kind: String = state.call("kind", (value.clone(),)).unwrap();
        assert_eq!(kind, value.type_name());
        state.call::<()>("shown", (value.clone(),)).unwrap();
        assert_eq!(state.take_printed(), format!("{value}\n"));
    }
}

#[test]
fn arguments_are_tuples_arrays_and_lists() {
    let values: Vec<Value> = vec![1.into(), "a".into()];
    assert_eq!((1, "a").into_arguments(), values);
    assert_eq!(values[..].into_arguments(), values);
    assert_eq!([1, 2].into_arguments(), (1, 2).into_arguments());
    assert_eq!((1, 2, 3, 4, 5, 6).into_arguments().len(), 6);
    let mut engine = Engine::new();
    engine.register(
        "six",
        |a: i64, b: i64, c: i64, d: i64, e: i64, f: Option<i64>| {
            a + b + c + d + e + f.unwrap_or(100)
        },
    );
    assert_eq!(engine.eval::<i64>("six(1, 2, 3, 4, 5, ())").unwrap(), 115);
}
