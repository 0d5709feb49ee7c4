//! Nanoseconds a call and for each instruction: the least of many rounds.
use grain::{verify_into, Caps, Chunk, Pools};
use std::hint::black_box;
use std::time::{Duration, Instant};

/// Code of about this number of instructions.
type Maker = fn(usize) -> Vec<u8>;

/// Pairs of Unit and Pop, and a Return.
fn straight(instructions: usize) -> Vec<u8> {
    let mut code = Vec::new();
    for at in 0..instructions - 1 {
        code.push(if at % 2 == 0 { 0x02 } else { 0x0b });
    }
    code.push(0x13);
    code
}

/// True, a jump past Unit and Pop where it is false, and a Return.
fn branching(instructions: usize) -> Vec<u8> {
    let mut code = Vec::new();
    for _ in 0..(instructions - 1) / 4 {
        let target = code.len() as u32 + 8;
        code.extend([0x04, 0x0e]);
        code.extend(target.to_le_bytes());
        code.extend([0x02, 0x0b]);
    }
    code.push(0x13);
    code
}

/// A handler armed, Unit and Pop, the handler disarmed, a jump past where it catches, and there it is disarmed; and a Return.
fn handlers(instructions: usize) -> Vec<u8> {
    let mut code = Vec::new();
    for _ in 0..(instructions - 1) / 6 {
        let at = code.len() as u32;
        code.push(0x23);
        code.extend((at + 13).to_le_bytes());
        code.extend([0x02, 0x0b, 0x22, 0x0c]);
        code.extend((at + 14).to_le_bytes());
        code.push(0x22);
    }
    code.push(0x13);
    code
}

/// The least time of a call, in nanoseconds.
fn least(code: &[u8]) -> f64 {
    let chunks = [Chunk::new(0, code.len() as u32, 8)];
    let (pools, mut depths) = (Pools::new(), [0]);
    let calls = (200_000 / code.len()).clamp(1, 10_000) as u32;
    let mut least = Duration::MAX;
    let until = Instant::now() + Duration::from_millis(700);
    while Instant::now() < until {
        let start = Instant::now();
        for _ in 0..calls {
            verify_into(Caps::ALL, black_box(code), &chunks, &pools, &mut depths)
                .expect("accepted");
        }
        least = least.min(start.elapsed() / calls);
    }
    least.as_nanos() as f64
}

fn main() {
    println!(
        "{:<10} {:>12} {:>14} {:>16}",
        "code", "instructions", "ns a call", "ns an instruction"
    );
    let makers: [(&str, Maker); 3] = [
        ("straight", straight),
        ("branching", branching),
        ("handlers", handlers),
    ];
    for (what, make) in makers {
        for instructions in [1, 100, 10_000, 1_000_000] {
            let code = make(instructions);
            let many = grain::count_instructions(&code).expect("whole instructions");
            let time = least(&code);
            println!(
                "{what:<10} {many:>12} {time:>14.0} {:>16.1}",
                time / many as f64
            );
        }
    }
}
