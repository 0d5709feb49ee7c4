//! Runs what `grain compile` makes of a script: reads the program file, verifies it, and runs its top level.
//!
//!     cargo run --example script -- examples/fib.grain
use grain::Instruction::{self, *};
use grain::{Caps, ProgramFile, Value, VerifiedFile};
use std::error::Error;

/// The host has functions, and no other feature that a program can declare.
const CAPS: Caps = Caps::FUNCTION;

/// A run of accepted code, which has its instructions, operands and slots. Types, steps, calls and variables are tested here.
struct Machine<'a> {
    file: &'a VerifiedFile,
    steps: u32,
    calls: u32,
    /// The address of the last instruction.
    at: u32,
}

impl<'a> Machine<'a> {
    /// Runs a chunk with arguments in its first slots.
    fn run(&mut self, chunk: usize, mut locals: Vec<Value<'a>>) -> Result<Value<'a>, &'static str> {
        let (file, mut declared) = (self.file, locals.len());
        let frame = file.frame(chunk).ok_or("no such chunk")?;
        let (mut next, mut stack) = (frame.entry, Vec::with_capacity(frame.depth));
        locals.resize(frame.slots + 100, Value::Unit);
        self.calls = self.calls.checked_sub(1).ok_or("too many calls")?;
        loop {
            self.at = next;
            self.steps = self.steps.checked_sub(1).ok_or("too many steps")?;
            let decoded = Instruction::decode(file.code(), next);
            let (instruction, after) = decoded.expect("accepted code has an instruction here");
            let mut pop = || stack.pop().expect("accepted code has its operands");
            next = after;
            match instruction {
                LoadConst { constant } => stack.extend(file.constant(constant.into())),
                Unit => stack.push(Value::Unit),
                True => stack.push(Value::Bool(true)),
                False => stack.push(Value::Bool(false)),
                LoadLocal { slot } => stack.push(locals[usize::from(slot)]),
                StoreLocal { slot } | AssignLocal { slot, .. } => locals[usize::from(slot)] = pop(),
                DeclareLocal { .. } => {
                    *locals.get_mut(declared).ok_or("too many variables")? = pop();
                    declared += 1;
                }
                UnwindTo { len } => declared = declared.min(len.into()),
                Pop => drop(pop()),
                Jump { target } => next = target,
                JumpIfFalse { target } => match pop() {
                    Value::Bool(truth) => next = if truth { after } else { target },
                    _ => return Err("no boolean"),
                },
                CallOp { name, argc, .. } => {
                    let with = stack.split_off(stack.len() - usize::from(argc));
                    stack.push(operate(file.name(name.into()), &with)?);
                }
                Call { name, argc } => {
                    let called = file.callee(name.into(), argc.into());
                    let with = stack.split_off(stack.len() - usize::from(argc));
                    stack.push(self.run(called.ok_or("no such function")?, with)?);
                }
                Tick | Checkpoint | Statement { .. } => {}
                Return => {
                    self.calls += 1;
                    return Ok(stack.pop().unwrap_or(Value::Unit));
                }
                _ => return Err("an instruction that this machine lacks"),
            }
        }
    }
}

/// An operator on two integers.
fn operate<'a>(name: Option<&str>, with: &[Value<'a>]) -> Result<Value<'a>, &'static str> {
    let [Value::Integer(a), Value::Integer(b)] = *with else {
        return Err("no integers");
    };
    let number = match name.unwrap_or_default() {
        "<" => return Ok(Value::Bool(a < b)),
        "+" => a.checked_add(b),
        "-" => a.checked_sub(b),
        "/" if b == 0 => return Err("division by zero"),
        "/" => a.checked_div(b),
        _ => return Err("no such operator"),
    };
    number.map(Value::Integer).ok_or("overflow")
}

/// The result of a program file, or the line of its fault.
fn answer(bytes: &[u8]) -> Result<String, Box<dyn Error>> {
    let file = ProgramFile::try_from(bytes)?.into_verified(CAPS)?;
    let mut machine = Machine {
        file: &file,
        steps: 10_000_000,
        calls: 200,
        at: 0,
    };
    let result = machine.run(0, Vec::new());
    let site = file.site(machine.at).unwrap_or_default();
    let value = result.map_err(|fault| format!("{site}: {fault}"))?;
    Ok(format!("{value:?}"))
}

fn main() -> Result<(), Box<dyn Error>> {
    let path = std::env::args_os().nth(1).ok_or("no file is given")?;
    println!("{}", answer(&std::fs::read(path)?)?);
    Ok(())
}

#[cfg(test)]
mod tests {
    use super::answer;

    // What `grain compile --no-source` makes of these:
    //
    //     fn fib(n) { if n < 2 { n } else { fib(n - 1) + fib(n - 2) } }
    //     fib(20)
    const FIB: &[u8] = include_bytes!("fib.grain");
    //     let total = 10;
    //     let count = 0;
    //     total / count
    const DIVIDE: &[u8] = include_bytes!("divide.grain");

    #[test]
    fn a_result_a_fault_and_a_refusal_are_answered() {
        assert_eq!(answer(FIB).unwrap(), "Integer(6765)");
        let fault = answer(DIVIDE).unwrap_err();
        assert_eq!(fault.to_string(), "3:7: division by zero");
        let cut = answer(&FIB[..80]).unwrap_err();
        assert!(cut.to_string().contains("in the code"), "{cut}");
        let mut hostile = FIB.to_vec();
        let tick = hostile.iter().position(|byte| *byte == 0x31).unwrap();
        hostile[tick] = 0x0b; // Pop, with nothing on the stack
        let refused = answer(&hostile).unwrap_err().to_string();
        assert_eq!(
            refused,
            "refused: chunk 0: the instruction at 0 needs 1 operand, and there are 0"
        );
    }
}
