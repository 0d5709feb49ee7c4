//! What a host does with untrusted programs, from the lists that it has read to the result of a run: it fills pools, verifies
//! in memory that it keeps and within a limit, shows a refusal with its line, and runs what is accepted.
use grain::{Caps, Chunk, Kind, Opcode, PoolError, Pools, Positions, Program, Verified, Verifier};
use std::error::Error;

/// The host has no capability: its scripts have numbers, booleans, and calls of its own functions.
const CAPS: Caps = Caps::NONE;

/// The greatest code that the host takes. Chunks don't overlap in what its compiler makes, so this bounds the work too.
const LONGEST: usize = 1 << 20;

#[derive(Clone, Copy, Debug, PartialEq)]
enum Value {
    Unit,
    Bool(bool),
    Int(i64),
}

/// What the host has read of a program. The verifier sees of a constant only what it needs of the host, which is nothing here.
struct Script {
    code: Vec<u8>,
    constants: Vec<Value>,
    names: Vec<&'static str>,
    table: Vec<u8>,
}

impl Script {
    /// The program that is verified. No call here ends the process where memory runs out.
    fn program(&self) -> Result<Program, Box<dyn Error>> {
        let chunks = vec![Chunk::new(0, self.code.len() as u32, 8)];
        let mut program = Program::new(self.code.clone(), chunks, self.pools()?);
        program.attach_positions(Positions {
            table: self.table.clone(),
            stream: vec![0],
        })?;
        Ok(program)
    }

    fn pools(&self) -> Result<Pools, PoolError> {
        let mut pools = Pools::new();
        pools.extend_constants(self.constants.iter().map(|_| Caps::NONE))?;
        pools.extend_names(&self.names)?;
        Ok(pools)
    }
}

/// An instruction: what it does, and its fields. A target is the place of an instruction in the list.
type Line = (Opcode, Vec<u32>);

/// The code of instructions, written by the instruction table.
fn assembled(lines: &[Line]) -> Vec<u8> {
    let starts: Vec<u32> = lines
        .iter()
        .scan(0, |end, (opcode, _)| {
            *end += opcode.width();
            Some(*end - opcode.width())
        })
        .collect();
    let mut code = Vec::new();
    for (opcode, fields) in lines {
        code.push(opcode.tag());
        for (kind, field) in opcode.fields().iter().zip(fields) {
            match kind {
                Kind::Count => code.push(*field as u8),
                Kind::Target => code.extend(starts[*field as usize].to_le_bytes()),
                _ => code.extend((*field as u16).to_le_bytes()),
            }
        }
    }
    code
}

/// The sum of the numbers from 1 to 10. In the bad one each round leaves an operand.
fn sum(is_bad: bool) -> Script {
    use Opcode::{Call, Jump, JumpIfFalse, LoadConst, LoadLocal, Return, StoreLocal, Tick};
    let (sum, count, plus, at_most) = (0, 1, 0, 1);
    let keep = if is_bad {
        (LoadLocal, vec![sum])
    } else {
        (Tick, vec![])
    };
    let lines = [
        (LoadConst, vec![0]),
        (StoreLocal, vec![sum]),
        (LoadConst, vec![1]),
        (StoreLocal, vec![count]),
        (LoadLocal, vec![count]), // 4, where each round begins
        (LoadConst, vec![2]),
        (Call, vec![at_most, 2]),
        (JumpIfFalse, vec![18]),
        (LoadLocal, vec![sum]),
        (LoadLocal, vec![count]),
        (Call, vec![plus, 2]),
        (StoreLocal, vec![sum]),
        (LoadLocal, vec![count]),
        (LoadConst, vec![1]),
        (Call, vec![plus, 2]),
        (StoreLocal, vec![count]),
        keep,
        (Jump, vec![4]),
        (LoadLocal, vec![sum]), // 18, after the rounds
        (Return, vec![]),
    ];
    Script {
        code: assembled(&lines),
        constants: vec![Value::Int(0), Value::Int(1), Value::Int(10)],
        names: vec!["+", "<="],
        // The address 0 is at 1:1, and 12, where each round begins, at 2:3.
        table: vec![2, 0, 1, 1, 12, 2, 3],
    }
}

/// Runs a chunk of an accepted program on a stack of just its depth, with just its slots. A fault is a text here.
///
/// It tests no operand, no address and no slot: accepted code has them all. Types and the number of steps must be checked by
/// the host.
fn run(verified: &Verified, script: &Script, chunk: usize) -> Result<Value, &'static str> {
    let depth = verified.depth(chunk).ok_or("no such chunk")?;
    let mut stack = vec![Value::Unit; usize::from(depth)];
    let (mut top, mut locals) = (0, vec![Value::Unit; verified.slots()[chunk] as usize]);
    let mut address = verified.chunks()[chunk].entry;
    for _ in 0..10_000 {
        let Some((opcode, fields)) = Opcode::decode(verified.code(), address) else {
            unreachable!("accepted code has an instruction wherever a run goes");
        };
        let mut next = address + opcode.width();
        let mut push = |top: &mut usize, value| {
            stack[*top] = value;
            *top += 1;
        };
        match opcode {
            Opcode::LoadConst => push(&mut top, script.constants[fields[0] as usize]),
            Opcode::Unit => push(&mut top, Value::Unit),
            Opcode::True => push(&mut top, Value::Bool(true)),
            Opcode::False => push(&mut top, Value::Bool(false)),
            Opcode::LoadLocal => push(&mut top, locals[fields[0] as usize]),
            Opcode::StoreLocal => {
                top -= 1;
                locals[fields[0] as usize] = stack[top];
            }
            Opcode::Call => {
                top -= fields[1] as usize;
                let arguments = &stack[top..top + fields[1] as usize];
                let result = call(script.names[fields[0] as usize], arguments)?;
                stack[top] = result;
                top += 1;
            }
            Opcode::Jump => next = fields[0],
            Opcode::JumpIfFalse => {
                top -= 1;
                match stack[top] {
                    Value::Bool(true) => {}
                    Value::Bool(false) => next = fields[0],
                    _ => return Err("no boolean"),
                }
            }
            Opcode::Pop => top -= 1,
            Opcode::Tick => {}
            Opcode::Return => {
                return Ok(if top == 0 {
                    Value::Unit
                } else {
                    stack[top - 1]
                })
            }
            _ => return Err("this machine lacks the instruction"),
        }
        address = next;
    }
    Err("too many steps")
}

fn call(name: &str, arguments: &[Value]) -> Result<Value, &'static str> {
    match (name, arguments) {
        ("+", [Value::Int(a), Value::Int(b)]) => {
            a.checked_add(*b).map(Value::Int).ok_or("overflow")
        }
        ("<=", [Value::Int(a), Value::Int(b)]) => Ok(Value::Bool(a <= b)),
        _ => Err("no such function"),
    }
}

fn main() -> Result<(), Box<dyn Error>> {
    let mut verifier = Verifier::new().limit(LONGEST as u64);
    for script in [sum(true), sum(false)] {
        if script.code.len() > LONGEST {
            println!("too long");
            continue;
        }
        match verifier.verify_program(CAPS, script.program()?) {
            Ok(verified) => println!("{:?}", run(&verified, &script, 0)?),
            Err(rejected) => {
                let Some(refusal) = rejected.refusal() else {
                    return Err(rejected.into());
                };
                let program = rejected.program();
                match program.site_of(refusal) {
                    Some(site) => println!("{site}: {refusal}"),
                    None => println!("{refusal}"),
                }
                print!("{}", program.explain(CAPS, refusal)?);
            }
        }
    }
    Ok(())
}

#[cfg(test)]
mod tests {
    use super::*;

    #[test]
    fn the_good_script_is_run_and_the_bad_one_refused() {
        let (good, bad) = (sum(false), sum(true));
        let verified = good.program().unwrap().into_verified(CAPS).unwrap();
        assert_eq!(run(&verified, &good, 0), Ok(Value::Int(55)));
        let rejected = bad.program().unwrap().into_verified(CAPS).unwrap_err();
        let line = rejected.program().site_of(rejected.refusal().unwrap());
        assert_eq!(line.map(|site| site.line), Some(2));
    }
}
