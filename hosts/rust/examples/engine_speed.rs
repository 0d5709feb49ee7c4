//! What the engine costs: a run in slices next to one run, a call of a host's function, and a state of a small script.
use grain::engine::{Bounds, Engine, RunError, State};
use std::error::Error;
use std::time::{Duration, Instant};

const FIB: &str = "fn fib(n) { if n < 2 { n } else { fib(n - 1) + fib(n - 2) } }";
const CALLS: &str = "fn calls(n) { let sum = 0; for i in 0..n { sum = add(sum, i); } sum }";
const LOOP: &str = "fn calls(n) { let sum = 0; for i in 0..n { sum = sum + i; } sum }";
const ROUNDS: u32 = 7;

/// An engine whose runs make this many turns before they pause.
fn engine(turns: u64) -> Engine {
    let mut bounds = Bounds::default();
    bounds.turns = turns;
    let mut engine = Engine::new();
    engine
        .bounds(bounds)
        .register("add", |a: i64, b: i64| a + b);
    engine
}

/// The least time of some rounds.
fn least<E>(mut round: impl FnMut() -> Result<(), E>) -> Result<Duration, E> {
    let mut least = Duration::MAX;
    for _ in 0..ROUNDS {
        let start = Instant::now();
        round()?;
        least = least.min(start.elapsed());
    }
    Ok(least)
}

fn call(state: &mut State, name: &str, n: i64) -> Result<i64, RunError> {
    let mut result = state.call(name, (n,));
    while let Err(RunError::Paused) = result {
        result = state.resume();
    }
    result
}

fn time_of(source: &str, turns: u64, name: &str, n: i64) -> Result<Duration, Box<dyn Error>> {
    let engine = engine(turns);
    let script = engine.compile(source)?;
    let mut state = engine.state(&script)?;
    Ok(least(|| call(&mut state, name, n).map(drop))?)
}

fn main() -> Result<(), Box<dyn Error>> {
    let whole = time_of(FIB, u64::MAX, "fib", 25)?;
    let sliced = time_of(FIB, 1000, "fib", 25)?;
    let ratio = sliced.as_secs_f64() / whole.as_secs_f64();
    println!(
        "fib(25) in one run: {whole:?}; in slices of 1,000 turns: {sliced:?}, {ratio:.3} times"
    );
    let count = 200_000;
    let with = time_of(CALLS, u64::MAX, "calls", count)?;
    let without = time_of(LOOP, u64::MAX, "calls", count)?;
    let each = with.saturating_sub(without).as_nanos() / count as u128;
    println!("a call of a function of two integers: {each} ns");
    let engine = engine(u64::MAX);
    let compiled = least(|| engine.compile(FIB).map(drop))?;
    let script = engine.compile(FIB)?;
    let started = least(|| engine.state(&script).map(drop))?;
    println!("compiling a small script: {compiled:?}; a state of it: {started:?}");
    Ok(())
}
