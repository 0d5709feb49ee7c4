//! Runs scripts that NUL bytes separate on standard input, each in a new state and with the bounds of `grain run`: run_many [TURNS]
//!
//! For each it writes a line with the status, the size of the output and the size of the error, and then both: what `grain run` writes
//! to standard output and to standard error. So tests/engine_scripts.py of the repository compares the two.
use grain::engine::{Bounds, Engine, Value};
use std::error::Error;
use std::io::{self, BufWriter, Read, Write};

/// How many calls `grain run` lets wait. It bounds neither output nor memory, and its other bounds are the usual ones.
const CALLS: usize = 10_000;

/// There are none, as in the folder of the script that `grain run` is given: an import is the same error.
const NO_MODULES: [(&str, &str); 0] = [];

fn engine(turns: u64) -> Engine {
    let bounds = Bounds::new()
        .turns(turns)
        .calls(CALLS)
        .printed(usize::MAX)
        .memory(usize::MAX);
    let mut engine = Engine::new();
    engine.bounds(bounds).register("args", Vec::<Value>::new);
    engine
}

/// What came of a script.
#[derive(Debug, Default, PartialEq)]
struct Ran {
    /// What it printed, and its value unless that is unit.
    output: String,
    /// Why it isn't compiled, or why it failed.
    error: Option<String>,
}

impl Ran {
    fn write(&self, to: &mut impl Write) -> io::Result<()> {
        let status = usize::from(self.error.is_some());
        let error = self.error.as_deref().unwrap_or_default();
        writeln!(to, "{status} {} {}", self.output.len(), error.len())?;
        write!(to, "{}{error}", self.output)
    }
}

fn run(engine: &Engine, text: &str) -> Result<Ran, Box<dyn Error>> {
    let script = engine.compile_with_modules(text, NO_MODULES)?;
    let mut state = engine.state(&script)?;
    let value = state.run::<Value>();
    let mut output = state.take_printed();
    let error = match value {
        Ok(Value::Unit) => None,
        Ok(value) => {
            output += &format!("{value}\n");
            None
        }
        Err(error) => Some(error.to_string()),
    };
    Ok(Ran { output, error })
}

/// What came of the bytes of a script.
fn ran(engine: &Engine, text: &[u8]) -> Ran {
    let ran = match std::str::from_utf8(text) {
        Ok(text) => run(engine, text),
        Err(_) => Err("the text is not UTF-8".into()),
    };
    ran.unwrap_or_else(|error| Ran {
        output: String::new(),
        error: Some(error.to_string()),
    })
}

fn main() -> Result<(), Box<dyn Error>> {
    let turns = match std::env::args().nth(1) {
        Some(turns) => turns.parse()?,
        None => u64::MAX,
    };
    let engine = engine(turns);
    let mut scripts = Vec::new();
    io::stdin().read_to_end(&mut scripts)?;
    let mut output = BufWriter::new(io::stdout().lock());
    for script in scripts.split(|byte| *byte == 0) {
        ran(&engine, script).write(&mut output)?;
    }
    Ok(output.flush()?)
}

#[cfg(test)]
mod tests {
    use super::{engine, ran};

    /// What is written of a script.
    fn written(text: &[u8]) -> String {
        let mut bytes = Vec::new();
        ran(&engine(1000), text).write(&mut bytes).unwrap();
        String::from_utf8(bytes).unwrap()
    }

    #[test]
    fn values_output_and_errors_are_written() {
        assert_eq!(
            written(b"print(args()); [1, 'a', \"b\"]"),
            "0 17 0\n[]\n[1, 'a', \"b\"]\n"
        );
        assert_eq!(written(b"let x = 1;"), "0 0 0\n");
        let fault = written(b"print(1); 1 / 0");
        assert!(
            fault.starts_with("1 2 ") && fault.contains("\n1\nDivision by zero"),
            "{fault}"
        );
        assert_eq!(written(b"loop { }"), "1 0 12\nout of turns");
        assert!(written(b"let = 1").starts_with("1 0 "));
        assert!(written(b"\xff").ends_with("the text is not UTF-8"));
    }
}
