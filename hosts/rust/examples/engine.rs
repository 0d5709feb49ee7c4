//! A host of scripts: compiles a stranger's script within bounds, gives it a module and three functions, runs it, and calls its
//! `score` three times: engine FILE. An error is shown with its line.
use grain::engine::{Bounds, Engine};
use std::error::Error;

/// What scripts may import.
const MODULES: [(&str, &str); 1] = [(
    "levels",
    "fn level(score) { if score < 5 { 1 } else { 2 } }",
)];

fn engine() -> Engine {
    let bounds = Bounds::new()
        .turns(1_000_000)
        .calls(200)
        .value_size(100_000)
        .printed(65_536);
    let mut engine = Engine::new();
    engine
        .bounds(bounds)
        .register("limit", || 100)
        .register("double", |n: i64| n * 2)
        .register("fetch", |key: String| Err::<i64, _>(format!("no {key}")));
    engine
}

fn main() -> Result<(), Box<dyn Error>> {
    let path = std::env::args().nth(1).ok_or("engine FILE")?;
    let engine = engine();
    let script = engine.compile_with_modules(&std::fs::read_to_string(path)?, MODULES)?;
    let mut state = engine.state(&script)?;
    println!("{}", state.run::<i64>()?);
    for n in 1..=3 {
        println!("{}", state.call::<i64>("score", (n,))?);
    }
    print!("{}", state.take_printed());
    Ok(())
}
