//! What the tests share. No test uses all of it.
#![allow(dead_code)]

pub mod api;
pub mod chance;
pub mod model;
pub mod programs;

use grain::{verify, Caps, Chunk, Flaw, Pools, Refusal, VerifyError};

/// The bytes that hexadecimal digits spell.
pub fn bytes(hex: &str) -> Vec<u8> {
    (0..hex.len() / 2)
        .map(|i| u8::from_str_radix(&hex[2 * i..2 * i + 2], 16).unwrap())
        .collect()
}

/// All of the code as one chunk.
pub fn whole(code: &[u8]) -> [Chunk; 1] {
    [Chunk::new(0, code.len() as u32, 8)]
}

/// Why a program is refused.
pub fn refusal<T: std::fmt::Debug>(said: Result<T, VerifyError>) -> Refusal {
    match said {
        Err(VerifyError::Refused(refusal)) => refusal,
        other => panic!("{other:?} is not a refusal"),
    }
}

/// The address and the flaw of a refusal.
pub fn found<T: std::fmt::Debug>(said: Result<T, VerifyError>) -> (Option<u32>, Flaw) {
    let refusal = refusal(said);
    (refusal.address(), refusal.flaw())
}

/// What the line program answers to a `verify` line.
pub fn line_of(caps: Caps, code: &[u8], chunks: &[Chunk]) -> String {
    match verify(caps, code, chunks, &Pools::new()) {
        Ok(depths) => depths
            .iter()
            .fold("accepted".to_string(), |line, n| format!("{line} {n}")),
        said => format!("refused {}", refusal(said).line()),
    }
}

/// A program file with something in each list, the one of the tests in C.
const SAMPLE: &str = "
    0067726e0200ffff010709040100001300040102000201000000000402010001010100040102036c656e02c3
    a90e000102035304e901050268690602040702040802030208000902ff000a0201610001620501630b016601
    03080c030a0d808080808080808240020027023c3e011c000001030003010100000100000001010000010100
    0100000102030101000003010200020000000002010203000504010208010300010173010401010500000102
    00
";

/// Its bytes.
pub fn sample_file() -> Vec<u8> {
    bytes(&SAMPLE.replace(char::is_whitespace, ""))
}
