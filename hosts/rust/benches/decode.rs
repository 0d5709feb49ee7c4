//! Nanoseconds for each instruction that a machine decodes: by `Opcode::decode`, and by `Instruction::decode`. The machine matches
//! on what it gets and adds its fields up, over code of calls, loads, jumps and instructions without fields.
use grain::{Instruction, Opcode};
use std::hint::black_box;
use std::time::Instant;

/// `LoadLocal`, `LoadConst`, `CallOp`, `JumpIfFalse` to the next, `Tick` and `Pop`, again and again; and `Return`.
fn code(rounds: usize) -> Vec<u8> {
    let mut code = Vec::new();
    for _ in 0..rounds {
        code.extend([0x05, 1, 0, 0x01, 2, 0, 0x10, 3, 0, 2, 4, 0]);
        let next = code.len() as u32 + 5;
        code.push(0x0e);
        code.extend(next.to_le_bytes());
        code.extend([0x12, 0x0b]);
    }
    code.push(0x13);
    code
}

fn by_opcode(code: &[u8]) -> (u64, u64) {
    let (mut at, mut count, mut sum) = (0, 0, 0u64);
    while let Some((opcode, fields)) = Opcode::decode(code, at) {
        (at, count) = (at + opcode.width(), count + 1);
        sum += match opcode {
            Opcode::LoadLocal => u64::from(fields[0]),
            Opcode::LoadConst => u64::from(fields[0]) << 1,
            Opcode::CallOp => u64::from(fields[0]) + u64::from(fields[1]) + u64::from(fields[2]),
            Opcode::JumpIfFalse => u64::from(fields[0]) ^ 1,
            Opcode::Tick => 3,
            Opcode::Pop => 5,
            Opcode::Return => return (count, sum),
            _ => 7,
        };
    }
    (count, sum)
}

fn by_instruction(code: &[u8]) -> (u64, u64) {
    let (mut at, mut count, mut sum) = (0, 0, 0u64);
    while let Some((instruction, next)) = Instruction::decode(code, at) {
        (at, count) = (next, count + 1);
        sum += match instruction {
            Instruction::LoadLocal { slot } => u64::from(slot),
            Instruction::LoadConst { constant } => u64::from(constant) << 1,
            Instruction::CallOp {
                name,
                argc,
                operator,
            } => u64::from(name) + u64::from(argc) + u64::from(operator),
            Instruction::JumpIfFalse { target } => u64::from(target) ^ 1,
            Instruction::Tick => 3,
            Instruction::Pop => 5,
            Instruction::Return => return (count, sum),
            _ => 7,
        };
    }
    (count, sum)
}

/// The least time for an instruction in some rounds, in nanoseconds.
fn least(code: &[u8], run: fn(&[u8]) -> (u64, u64)) -> f64 {
    let mut least = f64::MAX;
    for _ in 0..50 {
        let start = Instant::now();
        let (count, sum) = run(black_box(code));
        let time = start.elapsed().as_nanos() as f64 / count as f64;
        black_box(sum);
        least = least.min(time);
    }
    least
}

fn main() {
    let code = code(50_000);
    assert_eq!(by_opcode(&code), by_instruction(&code));
    println!("Opcode::decode      {:>6.2} ns", least(&code, by_opcode));
    println!(
        "Instruction::decode {:>6.2} ns",
        least(&code, by_instruction)
    );
}
