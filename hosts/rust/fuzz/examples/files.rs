//! Any bytes as a program file: each list by its iterator and by its indices, the verdict by every call that gives one, each chunk
//! explained, and the file written again. Then the calls that take memory, with allocations refused. Part of the runs has fenced
//! blocks.
use grain::{
    check_stream, check_table, count_instructions, instructions, verify, Caps, ExplainError,
    FileError, Limits, ProgramFile, Refusal, Rejected, TightenError, Value, Values, Verified,
    Verifier, VerifyError,
};
use grain_fuzz::{fence, granting, live};
use std::slice;
use std::sync::atomic::{AtomicUsize, Ordering::Relaxed};

/// One run of this many has fenced blocks.
const FENCED_OF: usize = 8;
/// How many blocks a thread keeps for its next verdict, and the standard library for the thread.
const KEPT: usize = 16;

static RUNS: AtomicUsize = AtomicUsize::new(0);

/// How many values there are, those inside values among them.
fn count_values(values: Values<'_>) -> usize {
    values.map(|value| 1 + count_inside(value)).sum()
}

/// How many values are inside one.
fn count_inside(value: Value<'_>) -> usize {
    match value {
        Value::Array(items) | Value::FnPtr(_, items) | Value::Shared(items) => count_values(items),
        Value::Map(entries) => entries.map(|(_, value)| 1 + count_inside(value)).sum(),
        _ => 0,
    }
}

/// Each item of a list by its index is that of the iterator, and there is none after the last.
macro_rules! same_by_index {
    ($file:expr, $all:ident, $one:ident) => {
        let mut count = 0;
        for item in $file.$all() {
            assert_eq!(
                $file.$one(count).map(|it| format!("{it:?}")),
                Some(format!("{item:?}"))
            );
            count += 1;
        }
        assert!($file.$one(count).is_none() && $file.$one(u32::MAX).is_none());
    };
}

fn read_lists(file: &ProgramFile) {
    same_by_index!(file, names, name);
    same_by_index!(file, functions, function);
    same_by_index!(file, operators, operator);
    same_by_index!(file, op_assignments, op_assignment);
    same_by_index!(file, chains, chain);
    same_by_index!(file, switches, switch);
    assert!(count_values(file.constants()) >= file.constants().count());
    let last = file.constants().count() as u32;
    assert!((0..last).all(|index| file.constant(index).is_some()) && file.constant(last).is_none());
    for function in file.functions() {
        let callee = file.callee(function.name, function.parameters.len());
        assert!(
            function.this_type.is_some() || callee.is_some() || file.name(function.name).is_none()
        );
    }
    assert!(file.table().is_none_or(|table| check_table(table).is_ok()));
    assert!(check_stream(file.stream()).is_ok());
    let _ = (file.id(), file.source());
}

fn read_code(file: &ProgramFile) {
    let mut rows = instructions(file.code());
    let mut count = 0;
    for (address, row) in rows.by_ref() {
        assert!(file.code()[address as usize..].starts_with(row.bytes()));
        let _ = (
            file.site(address),
            row.opcode(),
            row.is_quiet(),
            row.fields().count(),
        );
        count += 1;
    }
    assert_eq!(
        rows.is_whole(),
        count_instructions(file.code()) == Ok(count)
    );
}

fn depths_of(
    said: Result<Verified<ProgramFile>, Rejected<ProgramFile>>,
) -> Result<Vec<u16>, VerifyError> {
    match said {
        Ok(verified) => {
            let chunks = verified.chunks().len();
            assert_eq!(
                (verified.depths().len(), verified.slots().len()),
                (chunks, chunks)
            );
            assert!((0..chunks).all(|chunk| verified.frame(chunk).is_some()));
            Ok(verified.depths().to_vec())
        }
        Err(rejected) => Err(rejected.into_parts().1),
    }
}

fn is_text(refusal: &Refusal) -> bool {
    !refusal.to_string().is_empty() && !refusal.line().is_empty()
}

/// The same verdict by each call.
fn judge(file: ProgramFile) {
    let said = file.verify(Caps::ALL);
    let mut verifier = Verifier::new();
    assert_eq!(
        verifier.verify_file(Caps::ALL, &file).map(<[u16]>::to_vec),
        said
    );
    if let Ok(depths) = &said {
        let alone = verify(file.caps(), file.code(), file.chunks(), &file);
        assert_eq!(alone.as_ref(), Ok(depths));
    }
    if let Err(VerifyError::Refused(refusal)) = &said {
        assert!(is_text(refusal));
        let _ = file.site_of(refusal);
    }
    explain_all(&file, said.is_ok());
    assert_eq!(depths_of(file.into_verified(Caps::ALL)), said);
}

fn explain_all(file: &ProgramFile, is_accepted: bool) {
    for chunk in 0..file.chunks().len() {
        match file.explain(Caps::ALL, chunk) {
            Ok(explained) => {
                assert!(!is_accepted || explained.refusal().is_none());
                assert!(!explained.to_string().is_empty());
                assert!(explained
                    .rows()
                    .iter()
                    .all(|row| explained.bases(row).count() < usize::MAX));
            }
            Err(error) => assert!(
                !is_accepted && matches!(error, ExplainError::BadCode(_)),
                "{error}"
            ),
        }
    }
}

/// What is written again is a file, no longer, and the second time the same.
fn change(bytes: &[u8], limits: &Limits) {
    match ProgramFile::tighten(bytes, limits) {
        Ok(first) => {
            assert!(first.len() <= bytes.len());
            assert_eq!(ProgramFile::tighten(&first, limits).as_ref(), Ok(&first));
        }
        Err(error) => assert!(
            matches!(error, TightenError::Verify(VerifyError::Refused(_))),
            "{error}"
        ),
    }
    match ProgramFile::strip(bytes, limits) {
        Ok(stripped) => {
            assert!(stripped.program.len() <= bytes.len());
            let again = ProgramFile::strip(&stripped.program, limits).map(|again| again.program);
            assert_eq!(again.as_ref(), Ok(&stripped.program));
        }
        Err(error) => assert_eq!(error, FileError::NotRestorable),
    }
}

/// The calls that take memory, with this many allocations granted: each has its result, or says that it ran out of memory.
fn try_refused(bytes: &[u8], limits: &Limits, count: usize) {
    let is_lack = |said: &Result<_, FileError>| matches!(said, Ok(_) | Err(FileError::OutOfMemory));
    let said = granting(count, || ProgramFile::read(bytes, limits));
    assert!(is_lack(&said.as_ref().map(drop).map_err(|error| *error)));
    if let Ok(file) = said {
        let said = granting(count % 8, || file.verify(Caps::ALL));
        assert!(matches!(
            said,
            Ok(_) | Err(VerifyError::OutOfMemory | VerifyError::Refused(_))
        ));
        let said = granting(count % 8, || file.explain(Caps::ALL, 0).map(drop));
        assert!(matches!(
            said,
            Ok(()) | Err(ExplainError::OutOfMemory | ExplainError::BadCode(_))
        ));
        if let Err(rejected) = granting(count % 8, || file.into_verified(Caps::ALL)) {
            assert_eq!(rejected.into_parts().0.chunks().len().min(1), 1);
        }
    }
    let said = granting(count, || ProgramFile::strip(bytes, limits)).map(drop);
    assert!(is_lack(&said) || said == Err(FileError::NotRestorable));
    let said = granting(count, || ProgramFile::tighten(bytes, limits)).map(drop);
    let is_known = match said {
        Ok(()) | Err(TightenError::Verify(_)) => true,
        Err(error) => error == TightenError::File(FileError::OutOfMemory),
    };
    assert!(is_known);
}

fn try_bytes(bytes: &[u8], run: usize) {
    let limits = Limits::default();
    match ProgramFile::read(bytes, &limits) {
        Ok(file) => {
            read_lists(&file);
            read_code(&file);
            judge(file);
            change(bytes, &limits);
            try_refused(bytes, &limits, run % 61);
        }
        Err(FileError::Malformed(why)) => {
            assert!(why.at() <= bytes.len() as u64 && !why.to_string().is_empty());
        }
        Err(error) => panic!("{error}"),
    }
}

#[no_mangle]
unsafe extern "C" fn LLVMFuzzerTestOneInput(bytes: *const u8, len: usize) -> i32 {
    let run = RUNS.fetch_add(1, Relaxed);
    fence(run % FENCED_OF == 0);
    let given = if len == 0 {
        &[][..]
    } else {
        // SAFETY: the fuzzer's input has as many bytes, and lives for the call.
        unsafe { slice::from_raw_parts(bytes, len) }
    };
    // (a block of its own ends at a fence)
    try_bytes(&Box::<[u8]>::from(given), run);
    fence(false);
    assert!(live() <= KEPT, "{} blocks are left", live());
    0
}
