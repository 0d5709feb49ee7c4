//! Program files: what is read of one, what refusals say, and that what was read is verified.
mod common;

use common::{bytes, sample_file as sample};
use grain::{
    explain, Caps, FileError, FileFault, FilePart, FlatPools, Flaw, Limits, Operator, ProgramFile,
    Range, Root, Site, Source, Step, Subject, Tail, TightenError, Value, Verified, Verifier,
    VerifyError,
};

#[test]
fn all_is_read() {
    let file = ProgramFile::read(&sample(), &Limits::default()).unwrap();
    assert_eq!(file.caps(), Caps::ALL);
    assert_eq!(file.id(), 9 << 64 | 7);
    assert_eq!(file.code(), [0x01, 0, 0, 0x13]);
    assert_eq!(file.chunks().len(), 3);
    assert_eq!(file.source(), Some("s"));
    assert_eq!(file.names().collect::<Vec<_>>(), ["len", "é"]);
    let functions: Vec<_> = file.functions().collect();
    assert_eq!(
        (functions[0].parameters, functions[0].this_type),
        (&[1, 0][..], None)
    );
    assert_eq!(
        (functions[1].is_private, functions[1].this_type),
        (true, Some(1))
    );
    assert_eq!(functions[1].chunk, file.chunks()[2]);
    let operators: Vec<_> = file.operators().collect();
    assert_eq!(operators, [Operator::Number(0), Operator::Custom("<>")]);
    let assigned = file.op_assignments().next().unwrap();
    assert_eq!(
        (assigned.op_assign, assigned.op),
        (Operator::Number(28), Operator::Number(0))
    );
    assert_eq!((assigned.op_assign_name, assigned.op_name), (0, 1));
    let chains: Vec<_> = file.chains().collect();
    assert_eq!(
        (chains[0].root(), chains[0].operands()),
        (Root::Local { name: 1, slot: 3 }, 1)
    );
    let steps: Vec<_> = chains[0].steps().collect();
    assert_eq!(
        (steps.len(), steps[0].step, steps[0].is_optional),
        (1, Step::Index { operand: 0 }, true)
    );
    assert_eq!(
        (chains[1].tail(), chains[1].steps().len()),
        (Tail::AssignThrough { op: 0 }, 1)
    );
    let switch = file.switches().next().unwrap();
    let mut cases: Vec<_> = switch
        .cases
        .iter()
        .map(|case| (case.constant, case.target))
        .collect();
    cases.sort_unstable();
    assert_eq!((cases, switch.otherwise), (vec![(3, 0), (5, 4)], 0));
    assert_eq!(
        switch.ranges,
        [Range {
            from: 1,
            to: 4,
            is_inclusive: true,
            target: 3
        }]
    );
    let is_in = |subject| switch.ranges[0].contains(subject);
    assert_eq!([0, 1, 4, 5].map(is_in), [false, true, true, false]);
    assert_eq!(file.site(0), Some(Site { line: 1, column: 5 }));
    assert_eq!(file.site(1), None);
    assert_eq!(file.chain_site(3), Some(Site { line: 2, column: 3 }));
}

/// Functions of no parameter: `f` for receivers of the type `g`, `g`, `f` by its second name and by its first, and one of a name that
/// isn't there; and `f` of one parameter.
const FUNCTIONS: &str = "
    0067726e 02 00 01 0000 020213 000201
    06 01000001 02000201 02000000 000201 01000000 000201 00000000 000201 07000000 000201 0001020000 000201
    04 0166 0166 0167 0168 00000000000000
";

#[test]
fn callees_are_found() {
    let file = ProgramFile::try_from(&sample()[..]).unwrap();
    assert_eq!(file.callee(0, 2), Some(1));
    let none = [(0, 1), (1, 0), (2, 2), (u32::MAX, 2), (0, usize::MAX)];
    assert!(none
        .iter()
        .all(|call| file.callee(call.0, call.1).is_none()));
    let functions = bytes(&FUNCTIONS.replace(char::is_whitespace, ""));
    let file = ProgramFile::try_from(&functions[..]).unwrap();
    let found = [(0, 0), (1, 0), (2, 0), (0, 1), (1, 1)];
    let chunks = found.map(|(name, arguments)| file.callee(name, arguments).unwrap());
    assert_eq!(chunks, [3, 3, 2, 6, 6]);
    let none = [(2, 1), (3, 0), (4, 0), (7, 0)];
    assert!(none
        .iter()
        .all(|call| file.callee(call.0, call.1).is_none()));
}

#[test]
fn constants_are_read() {
    let file = ProgramFile::try_from(&sample()[..]).unwrap();
    let all: Vec<_> = file.constants().collect();
    assert_eq!(all.len(), 14);
    assert_eq!(
        all[..4],
        [
            Value::Unit,
            Value::Bool(false),
            Value::Bool(true),
            Value::Integer(-42)
        ]
    );
    assert_eq!(
        all[4..8],
        [
            Value::Char('é'),
            Value::Text("hi"),
            Value::Range(1, 2),
            Value::RangeInclusive(1, 2)
        ]
    );
    let Value::Array(items) = all[8] else {
        panic!()
    };
    let items: Vec<_> = items.collect();
    assert_eq!(items[0], Value::Integer(1));
    assert!(matches!(items[1], Value::Array(none) if none.len() == 0));
    assert_eq!(all[9], Value::Blob(&[0xff, 0]));
    let Value::Map(entries) = all[10] else {
        panic!()
    };
    assert_eq!(entries.len(), 2);
    let entries: Vec<_> = entries.collect();
    assert_eq!(entries, [("a", Value::Unit), ("b", Value::Text("c"))]);
    let Value::FnPtr("f", mut bound) = all[11] else {
        panic!()
    };
    assert_eq!(
        (bound.next(), bound.next()),
        (Some(Value::Integer(4)), None)
    );
    let Value::Shared(mut inner) = all[12] else {
        panic!()
    };
    assert_eq!(inner.next(), Some(Value::Integer(5)));
    assert_eq!(all[13], Value::Float(2.5));
    for (index, value) in all.iter().enumerate() {
        assert_eq!(file.constant(index as u32).as_ref(), Some(value));
    }
    assert_eq!(file.constant(14), None);
}

/// The constants 1.5, -0.0, NaN with all bits set, and an array of 0.1 and 7.
const FLOATS: &str = "
    0067726e 02 00 00 0000 020213 000201 00 00
    04 0d80808080808080fc3f 0d80808080808080808001 0dffffffffffffffffff01 0802 0d9ab3e6cc99b3e6dc3f 030e
    000000000000
";

#[test]
fn floats_are_read() {
    let all = bytes(&FLOATS.replace(char::is_whitespace, ""));
    let file = ProgramFile::try_from(&all[..]).unwrap();
    let bits = |index| match file.constant(index) {
        Some(Value::Float(number)) => number.to_bits(),
        other => panic!("{other:?}"),
    };
    assert_eq!(bits(0), 1.5f64.to_bits());
    assert_eq!(bits(1), (-0.0f64).to_bits());
    assert_eq!(bits(2), u64::MAX);
    let Some(Value::Array(items)) = file.constant(3) else {
        panic!()
    };
    assert_eq!(
        items.collect::<Vec<_>>(),
        [Value::Float(0.1), Value::Integer(7)]
    );
    assert_eq!(file.constants().len(), 4);
}

#[test]
fn files_are_verified() {
    let file = ProgramFile::read(&sample(), &Limits::default()).unwrap();
    assert_eq!(file.verify(Caps::ALL), Ok(vec![1, 1, 1]));
    let host = Caps::ALL - (Caps::IMPORT | Caps::EXPORT);
    let refused = *file.verify(host).unwrap_err().refusal().unwrap();
    let missing = Caps::IMPORT | Caps::EXPORT;
    assert_eq!(refused.flaw(), Flaw::DeclaredCaps { missing, host });
    assert_eq!(
        (refused.chunk(), refused.address(), refused.visited()),
        (None, None, 0)
    );
    let sentence = "the program declares EXPORT and IMPORT, which the host doesn't have";
    assert_eq!(refused.to_string(), sentence);
    assert_eq!(refused.line(), "declared-caps missing=3000");
    for explained in [file.explain(host, refused), file.explain(host, 0)] {
        let explained = explained.unwrap();
        assert_eq!(explained.refusal(), Some(&refused));
        assert!(explained
            .to_string()
            .starts_with(&format!("refused: {sentence}\n")));
    }
    let passing = file.explain(Caps::ALL, 0).unwrap();
    assert_eq!((passing.refusal(), passing.rows().len()), (None, 2));
    let mut verifier = Verifier::new().limit(11);
    assert_eq!(
        verifier.verify_file(Caps::ALL, &file),
        Err(VerifyError::TooMuchWork)
    );
    let mut verifier = Verifier::new().limit(12);
    assert_eq!(verifier.verify_file(Caps::ALL, &file), Ok(&[1, 1, 1][..]));
    let pools = FlatPools::from(&file);
    assert_eq!(pools.check(), Ok(()));
    assert_eq!(
        verifier.verify(Caps::ALL, file.code(), file.chunks(), pools),
        Ok(&[1, 1, 1][..])
    );
    let explained = explain(
        Caps::ALL,
        file.code(),
        file.chunks(),
        pools,
        Subject::from(0),
    )
    .unwrap();
    assert_eq!(explained.rows().len(), 2);
}

/// How many operands a machine has room for, whatever the program was read from.
fn room<P: Source>(verified: &Verified<P>) -> usize {
    verified
        .depths()
        .iter()
        .map(|depth| usize::from(*depth))
        .sum()
}

#[test]
fn what_is_verified_is_kept_with_the_file() {
    let file = ProgramFile::read(&sample(), &Limits::default()).unwrap();
    let rejected = file.into_verified(Caps::FUNCTION).unwrap_err();
    assert!(rejected.refusal().is_some());
    assert_eq!(rejected.program().source(), Some("s"));
    let verified = rejected.into_program().into_verified(Caps::ALL).unwrap();
    assert_eq!(
        (verified.depths(), verified.depth(3)),
        (&[1, 1, 1][..], None)
    );
    assert_eq!(
        (verified.caps(), verified.code().len()),
        (Caps::ALL, verified.program().code().len())
    );
    assert_eq!(
        (verified.site(0), room(&verified)),
        (Some(Site { line: 1, column: 5 }), 3)
    );
    assert_eq!(verified.constant(3), Some(Value::Integer(-42)));
    assert_eq!(verified.slots(), [0, 0, 0]);
    // The first function has two parameters.
    let slots = [0, 1, 2].map(|chunk| verified.frame(chunk).unwrap().slots);
    assert_eq!((slots, verified.frame(3)), ([0, 2, 0], None));
    assert_eq!(verified.flat().check(), Ok(()));
    let mut verifier = Verifier::new().limit(12);
    let file = verified.into_program();
    let verified = verifier.verify_program_file(Caps::ALL, file).unwrap();
    assert_eq!(verified.depths(), [1, 1, 1]);
    let mut verifier = Verifier::new().limit(11);
    let file = ProgramFile::from(verified);
    let rejected = verifier.verify_program_file(Caps::ALL, file).unwrap_err();
    assert_eq!(rejected.error(), &VerifyError::TooMuchWork);
}

#[test]
fn items_are_found_by_their_index() {
    let file = ProgramFile::read(&sample(), &Limits::default()).unwrap();
    let names: Vec<_> = file.names().map(Some).collect();
    assert_eq!(
        [0, 1, 2].map(|name| file.name(name)).to_vec(),
        [names, vec![None]].concat()
    );
    assert_eq!(file.name(u32::MAX), None);
    let operators: Vec<_> = file.operators().collect();
    assert_eq!((file.operators().len(), file.operator(2)), (2, None));
    assert_eq!(file.operator(1), Some(operators[1]));
    assert_eq!(file.op_assignment(0), file.op_assignments().next());
    assert_eq!(file.op_assignment(1), None);
    assert_eq!(file.op_assignment(u32::MAX), None);
    let functions: Vec<_> = file.functions().map(Some).collect();
    assert_eq!(
        [0, 1, 2].map(|at| file.function(at)).to_vec(),
        [functions, vec![None]].concat()
    );
    assert_eq!(file.function(1).unwrap().chunk, file.chunks()[2]);
    let shape = |chain: grain::FileChain<'_>| (chain.root(), chain.tail(), chain.steps().last());
    let chains: Vec<_> = file.chains().map(shape).collect();
    assert_eq!(
        [2, 1, 0].map(|at| file.chain(at).map(shape).unwrap()),
        [chains[2], chains[1], chains[0]]
    );
    assert!(file.chain(3).is_none() && file.chain(u32::MAX).is_none());
    let (switch, first) = (file.switch(0).unwrap(), file.switches().next().unwrap());
    assert_eq!(
        (switch.cases, switch.ranges, switch.otherwise),
        (first.cases, first.ranges, first.otherwise)
    );
    assert!(file.switch(1).is_none());
}

#[test]
fn errors_print_what_they_know() {
    let cut = ProgramFile::read(&sample()[..20], &Limits::default()).unwrap_err();
    assert_eq!(
        format!("{cut:?}"),
        "Malformed(Malformed { at: 20, part: Function, index: 0, fault: Truncated })"
    );
    let file = ProgramFile::read(&sample(), &Limits::default()).unwrap();
    let rejected = file.into_verified(Caps::ALL - Caps::BLOB).unwrap_err();
    assert_eq!(
        rejected.to_string(),
        "refused: the program declares BLOB, which the host doesn't have"
    );
    assert!(format!("{rejected:?}").starts_with("Rejected { error: Refused(Refusal { chunk: None"));
}

#[test]
fn refusals_are_named() {
    let bytes = sample();
    let Err(FileError::Malformed(cut)) = ProgramFile::read(&bytes[..20], &Limits::default()) else {
        panic!()
    };
    assert_eq!(
        (cut.at(), cut.part(), cut.index()),
        (20, FilePart::Function, 0)
    );
    assert_eq!(cut.fault(), FileFault::Truncated);
    assert_eq!(
        cut.to_string(),
        "byte 20, in function 0: the file ends within a field"
    );
    let small = Limits::new().size(9);
    let error = ProgramFile::read(&bytes, &small).unwrap_err();
    assert_eq!(
        error,
        FileError::TooLarge {
            size: bytes.len() as u64,
            limit: 9
        }
    );
    assert_eq!(
        error.to_string(),
        format!("file of {} bytes, limit 9", bytes.len())
    );
    let flat = Limits::new().depth(1);
    let Err(FileError::Malformed(deep)) = ProgramFile::read(&bytes, &flat) else {
        panic!()
    };
    assert_eq!(
        (deep.part(), deep.index(), deep.fault()),
        (FilePart::Constant, 8, FileFault::TooDeep)
    );
    let deepest = Limits::new().depth(Limits::MAX_DEPTH);
    assert!(ProgramFile::read(&bytes, &deepest).is_ok());
    let deep = deepest.depth(Limits::MAX_DEPTH + 1);
    let error = ProgramFile::read(&bytes[..9], &deep).unwrap_err();
    assert_eq!(error, FileError::BadLimit);
    assert_eq!(error.to_string(), "a limit is above its greatest value");
    assert_eq!(ProgramFile::strip(&bytes[..9], &deep), Err(error));
    assert_eq!(ProgramFile::tighten(&bytes[..9], &deep), Err(error.into()));
    let few = Limits::new().cases(1);
    let Err(FileError::Malformed(many)) = ProgramFile::read(&bytes, &few) else {
        panic!()
    };
    assert_eq!(
        (many.part(), many.fault()),
        (FilePart::Switch, FileFault::TooManyCases)
    );
    for len in 0..bytes.len() {
        assert!(ProgramFile::read(&bytes[..len], &Limits::default()).is_err());
    }
}

/// Where the second chunk of the sample says what it declares.
const DECLARED_AT: usize = 28;

#[test]
fn files_are_tightened() {
    let (bytes, limits) = (sample(), Limits::default());
    let mut wanted = bytes.clone();
    wanted[DECLARED_AT] = 1;
    assert_eq!(ProgramFile::tighten(&bytes, &limits), Ok(wanted.clone()));
    assert_eq!(ProgramFile::tighten(&wanted, &limits), Ok(wanted.clone()));
    assert_eq!(
        Verifier::new().limit(12).tighten_file(&bytes, &limits),
        Ok(wanted)
    );
    assert_eq!(
        Verifier::new().limit(11).tighten_file(&bytes, &limits),
        Err(TightenError::Verify(VerifyError::TooMuchWork))
    );

    let mut refused = bytes.clone();
    refused[DECLARED_AT] = 0;
    let error = ProgramFile::tighten(&refused, &limits).unwrap_err();
    assert_eq!(
        error.to_string(),
        "refused: chunk 1: 1 operand is needed, and 0 declared"
    );
    let TightenError::Verify(VerifyError::Refused(refusal)) = error else {
        panic!()
    };
    assert_eq!(refusal.chunk(), Some(1));
    assert!(matches!(refusal.flaw(), Flaw::StackExceedsDeclared { .. }));

    let cut = ProgramFile::tighten(&bytes[..20], &limits).unwrap_err();
    assert_eq!(
        cut,
        ProgramFile::read(&bytes[..20], &limits).unwrap_err().into()
    );
    let small = limits.size(9);
    assert!(matches!(
        ProgramFile::tighten(&bytes, &small),
        Err(TightenError::File(FileError::TooLarge { limit: 9, .. }))
    ));
}

#[test]
fn files_are_stripped() {
    let (bytes, limits) = (sample(), Limits::default());
    let file = ProgramFile::read(&bytes, &limits).unwrap();
    let stripped = ProgramFile::strip(&bytes, &limits).unwrap();
    assert!(stripped.program.len() < bytes.len());
    let bare = ProgramFile::read(&stripped.program, &limits).unwrap();
    assert_eq!((bare.table(), bare.chain_site(3)), (None, None));
    assert_eq!((bare.id(), bare.code()), (file.id(), file.code()));
    assert_eq!(bare.verify(Caps::ALL), file.verify(Caps::ALL));
    let (table, stream) = (file.table().unwrap(), file.stream());
    let parts: [&[u8]; 5] = [
        b"\0grn\x02\x01\x07\x09",
        &[table.len() as u8],
        table,
        &[stream.len() as u8],
        stream,
    ];
    assert_eq!(stripped.sidecar, parts.concat());
    // A position in the middle of `LoadConst`.
    let inside = b"\0grn\x02\0\0\x07\0\x04\x01\0\0\x13\0\x04\x01\0\0\x01\x03\x2a\0\0\0\0\0\x01\x04\0\x01\x01\x01\0\0";
    assert!(ProgramFile::read(inside, &limits).is_ok());
    assert_eq!(
        ProgramFile::strip(inside, &limits),
        Err(FileError::NotRestorable)
    );
    let again = ProgramFile::strip(&stripped.program, &limits).unwrap();
    assert_eq!(again.program, stripped.program);

    assert_eq!(
        ProgramFile::strip(&bytes[..20], &limits).unwrap_err(),
        ProgramFile::read(&bytes[..20], &limits).unwrap_err()
    );
}

#[test]
fn threads_share_a_file() {
    let file = ProgramFile::read(&sample(), &Limits::default()).unwrap();
    std::thread::scope(|scope| {
        for _ in 0..4 {
            scope.spawn(|| assert_eq!(file.verify(Caps::ALL), Ok(vec![1, 1, 1])));
        }
    });
    std::thread::spawn(move || assert_eq!(file.names().len(), 2))
        .join()
        .unwrap();
}
