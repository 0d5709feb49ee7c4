//! Runs the top level of a stranger's program file, which `grain compile` or [`Engine::compile`] has made: load FILE. A refusal is
//! shown in a listing, and a fault with its line.
use grain::engine::{Bounds, Engine, LoadError, Value};
use grain::{Caps, Limits, ProgramFile};
use std::error::Error;

/// What the top level returns.
fn answer(bytes: &[u8]) -> Result<Value, Box<dyn Error>> {
    let bounds = Bounds::new().turns(10_000_000).calls(200);
    let mut engine = Engine::new();
    let script = match engine.bounds(bounds).load(bytes) {
        Err(LoadError::Refused(refusal)) => {
            let file = ProgramFile::read(bytes, &Limits::new())?;
            return Err(file.explain(Caps::ALL, refusal)?.to_string().into());
        }
        loaded => loaded?,
    };
    Ok(engine.state(&script)?.run()?)
}

fn main() -> Result<(), Box<dyn Error>> {
    let path = std::env::args_os().nth(1).ok_or("load FILE")?;
    println!("{}", answer(&std::fs::read(path)?)?);
    Ok(())
}

#[cfg(test)]
mod tests {
    use super::answer;

    // The files of script.rs.
    const FIB: &[u8] = include_bytes!("fib.grain");
    const DIVIDE: &[u8] = include_bytes!("divide.grain");

    #[test]
    fn a_result_a_fault_and_a_refusal_are_shown() {
        assert_eq!(answer(FIB).unwrap(), 6765.into());
        let fault = answer(DIVIDE).unwrap_err().to_string();
        assert_eq!(fault, "Division by zero: 10 / 0 (line 3, position 7)");
        let cut = answer(&FIB[..80]).unwrap_err().to_string();
        assert!(cut.contains("in the code"), "{cut}");
        let mut hostile = FIB.to_vec();
        let tick = hostile.iter().position(|byte| *byte == 0x31).unwrap();
        hostile[tick] = 0x0b; // Pop, with nothing on the stack
        let refused = answer(&hostile).unwrap_err().to_string();
        assert!(refused.contains("<== here"), "{refused}");
    }
}
