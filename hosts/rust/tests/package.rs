//! What the package has around the library's calls.
mod common;

use common::{bytes, found, refusal, whole};
use grain::{
    instruction, instructions, mnemonic, stream_sites, stream_sites_into, table_entries,
    table_entries_into, tighten, verify, verify_into, AttachError, Caps, Case, ChainPart, ChainRow,
    Chunk, Constant, Entry, FlatPools, Flaw, Instruction, Kind, Needs, Opcode, Pools, PoolsFlaw,
    PoolsList, Positions, Program, ReadError, Root, Site, Step, StepRow, SwitchRow, TableFlaw,
    Tail, Verifier, VerifyError,
};

const NAMES: &[u8] = b"lenage";

fn property(name: u32) -> Step {
    Step::Property {
        name,
        getter: 0,
        setter: 0,
    }
}

/// Code on a chain and a switch, and pools for it, in both forms.
fn sample() -> (Vec<u8>, Pools) {
    let code = bytes("02160000180000021302 13".replace(' ', "").as_str());
    let case = Case {
        target: 7,
        constant: 1,
    };
    let pools = Pools::new()
        .constant(Needs::Unknown)
        .constant(Caps::ARRAY)
        .name("len")
        .name("age")
        .chain(Root::Temporary, &[property(1)], Tail::Read, 0)
        .switch(&[case], &[9], 9);
    (code, pools)
}

#[test]
fn lists_of_the_caller_are_verified_as_built_pools() {
    let (code, pools) = sample();
    let constants = [Constant::from(Needs::Unknown), Constant::from(Caps::ARRAY)];
    let chains = [ChainRow::new(Root::Temporary, 1, Tail::Read, 0)];
    let steps = [StepRow::from(property(1))];
    let switches = [SwitchRow {
        cases: 1,
        ranges: 1,
        otherwise: 9,
    }];
    let cases = [Case {
        target: 7,
        constant: 1,
    }];
    let lent = FlatPools::new()
        .constants(&constants)
        .names(NAMES, &[0, 3, 6])
        .chains(&chains, &steps)
        .switches(&switches, &cases, &[9]);
    let said = verify(Caps::ALL, &code, &whole(&code), &pools);
    assert_eq!(said, Ok(vec![2]));
    assert_eq!(verify(Caps::ALL, &code, &whole(&code), lent), said);
    let by_reference: &FlatPools<'_> = &lent;
    assert_eq!(verify(Caps::ALL, &code, &whole(&code), by_reference), said);
    assert_eq!(verify(Caps::ALL, &code, &whole(&code), pools.flat()), said);
    assert_eq!(
        (chains[0].root(), chains[0].tail()),
        (Root::Temporary, Tail::Read)
    );
    assert_eq!(Step::from(steps[0]), property(1));
    let uneven = lent.chains(&chains, &[]);
    let error = verify(Caps::ALL, &code, &whole(&code), uneven).unwrap_err();
    let (list, index) = (PoolsList::Chains, 0);
    let flaw = PoolsFlaw { list, index };
    assert_eq!(error, VerifyError::NotFlat(flaw));
    assert_eq!((uneven.check(), lent.check()), (Err(flaw), Ok(())));
    assert_eq!(
        error.to_string(),
        "the list of chains isn't flat at index 0"
    );
    let cut = lent.names(NAMES, &[0, 3]);
    let error = verify(Caps::ALL, &code, &whole(&code), cut).unwrap_err();
    assert!(matches!(error, VerifyError::NotFlat(flaw) if flaw.list == PoolsList::Names));
}

#[test]
fn pools_are_cleared_and_built_again() {
    let (code, chained) = sample();
    let mut pools = Pools::new();
    for _ in 0..3 {
        pools.clear();
        assert_eq!(pools, Pools::new());
        assert_eq!(pools.add_constant(Needs::Unknown), Ok(0));
        assert_eq!(pools.extend_constants([Caps::ARRAY]), Ok(1));
        assert_eq!(pools.add_name("len"), Ok(0));
        assert_eq!(pools.extend_names(["age"]), Ok(1));
        assert_eq!(
            pools.add_chain(Root::Temporary, [property(1)], Tail::Read, 0),
            Ok(0)
        );
        let cases = [Case {
            target: 7,
            constant: 1,
        }];
        assert_eq!(pools.add_switch(cases, [9], 9), Ok(0));
        assert_eq!(pools, chained);
        assert_eq!(
            verify(Caps::ALL, &code, &whole(&code), &mut pools),
            Ok(vec![2])
        );
    }
    pools.set_functions(1);
    let caps = Caps::ALL - Caps::FUNCTION;
    let refused = refusal(verify(caps, &code, &whole(&code), &pools));
    assert_eq!((refused.constant(&pools), refused.address()), (None, None));
}

#[test]
fn pools_that_are_dropped_leave_no_items() {
    let (code, _) = sample();
    for _ in 0..3 {
        let (_, again) = sample();
        assert_eq!(verify(Caps::ALL, &code, &whole(&code), &again), Ok(vec![2]));
        drop(again);
        let name = "x".repeat(2000);
        assert_eq!(
            Pools::new().name(&name).name("y"),
            Pools::new().name(&name).name("y")
        );
        let mut fresh = Pools::new();
        assert_eq!(fresh.add_name("len"), Ok(0));
        assert_eq!(fresh, Pools::new().name("len"));
    }
}

#[test]
fn a_constant_of_which_nobody_can_say_what_it_needs_passes() {
    let pools = Pools::new()
        .constant(Needs::Unknown)
        .constant(Caps::NONE)
        .constant(Caps::MAP | Caps::BLOB);
    assert_eq!(verify(Caps::BLOB | Caps::MAP, &[], &[], &pools), Ok(vec![]));
    let refused = refusal(verify(Caps::BLOB, &[], &[], &pools));
    assert_eq!(refused.constant(&pools), Some(2));
    assert_eq!((refused.address(), refused.chunk()), (None, None));
}

#[test]
fn the_part_of_a_chain_that_is_refused_is_found() {
    let part = |root, steps: &[Step], tail, operands, caps: Caps| {
        let pools = Pools::new()
            .name("x")
            .chain(Root::This, &[], Tail::Read, 0)
            .chain(root, steps, tail, operands);
        let code = bytes("02020216010013");
        let refused = refusal(verify(caps, &code, &whole(&code), &pools));
        assert_eq!(refused.address(), Some(3));
        refused
            .chain_place(&code, &pools)
            .map(|place| (place.chain, place.part))
    };
    let method = Step::Method {
        name: 0,
        argc: 2,
        operand: 0,
    };
    let index = Step::Index { operand: 0 };
    let all = Caps::ALL;
    let named = Root::Named { name: 1 };
    assert_eq!(
        part(named, &[index], Tail::Read, 1, all),
        Some((1, ChainPart::Root))
    );
    let steps = [index, property(0), method];
    assert_eq!(
        part(Root::This, &steps, Tail::Read, 1, all),
        Some((1, ChainPart::Step(2)))
    );
    let steps = [index, property(3), method];
    assert_eq!(
        part(Root::This, &steps, Tail::Read, 2, all),
        Some((1, ChainPart::Step(1)))
    );
    let through = Tail::AssignThrough { op: 0 };
    assert_eq!(
        part(Root::This, &[property(0)], through, 0, all),
        Some((1, ChainPart::Tail))
    );
    let steps = [property(0), index, property(0)];
    let fewer = all - Caps::INDEXING;
    assert_eq!(
        part(Root::This, &steps, Tail::Read, 1, fewer),
        Some((1, ChainPart::Step(1)))
    );
    let fewer = all - Caps::THIS;
    assert_eq!(
        part(Root::This, &steps, Tail::Read, 1, fewer),
        Some((1, ChainPart::Root))
    );
    // The instruction's own index is out of bounds: no chain is there.
    let code = bytes("0216000013");
    let refused = refusal(verify(all, &code, &whole(&code), &Pools::new()));
    assert_eq!(refused.chain_place(&code, &Pools::new()), None);
    let (what, index) = (Kind::Chain, 0);
    assert_eq!(refused.flaw(), Flaw::BadIndex { what, index });
}

#[test]
fn a_verifier_serves_one_program_after_another() {
    let mut verifier = Verifier::new();
    let none = Pools::new();
    let (good, bad) = (bytes("02020b0b0213"), bytes("0b13"));
    for round in 0..3 {
        let said = verifier.verify(Caps::NONE, &good, &whole(&good), &none);
        assert_eq!(said, Ok(&[2][..]), "round {round}");
        let error = verifier.verify(Caps::NONE, &bad, &whole(&bad), &none);
        let alone = verify(Caps::NONE, &bad, &whole(&bad), &none);
        assert_eq!(error.unwrap_err(), alone.unwrap_err(), "round {round}");
        if round == 1 {
            verifier.release();
        }
    }
    // It may go to another thread.
    std::thread::spawn(move || drop(verifier)).join().unwrap();
}

#[test]
fn work_is_limited() {
    let code = bytes("0213");
    let three = [whole(&code)[0]; 3];
    let none = Pools::new();
    for (limit, is_enough) in [(0, false), (5, false), (6, true), (u64::MAX, true)] {
        let mut verifier = Verifier::new().limit(limit);
        let mut depths = [7; 3];
        let said = verifier.verify_into(Caps::NONE, &code, &three, &none, &mut depths);
        if is_enough {
            assert_eq!((said, depths), (Ok(6), [1; 3]));
        } else {
            assert_eq!((said, depths), (Err(VerifyError::TooMuchWork), [7; 3]));
        }
        let said = verifier.explain(Caps::NONE, &code, &three, &none, 2);
        assert_eq!(said.is_ok(), limit >= 2);
        let program = Program::new(code.clone(), three.to_vec(), Pools::new());
        let said = verifier.verify_program(Caps::NONE, program.clone());
        assert_eq!(said.is_ok(), is_enough);
        let back = match said {
            Ok(verified) => verified.into_program(),
            Err(rejected) => rejected.into_program(),
        };
        assert_eq!(back, program);
    }
}

#[test]
fn what_is_verified_is_kept_with_the_program() {
    let (code, pools) = sample();
    let program = Program::new(code.clone(), whole(&code).to_vec(), pools.clone());
    let rejected = program
        .into_verified(Caps::ALL - Caps::PROPERTY)
        .unwrap_err();
    let refused = *rejected.refusal().unwrap();
    assert_eq!(rejected.error(), &VerifyError::Refused(refused));
    assert_eq!(rejected.program().code(), code);
    let verified = rejected.into_program().into_verified(Caps::ALL).unwrap();
    assert_eq!((verified.code(), verified.pools()), (&code[..], &pools));
    assert_eq!(
        (verified.chunks(), verified.caps()),
        (&whole(&code)[..], Caps::ALL)
    );
    assert_eq!((verified.depth(0), verified.depth(1)), (Some(2), None));
    assert_eq!((verified.depths(), verified.site(0)), (&[2][..], None));
}

#[test]
fn the_slots_of_each_chunk_are_counted() {
    // StoreLocal(258); LoadLocal(65535); Chain(0) at slot 7 and LoadLocal(1); no slot.
    let code = bytes("020602010213021305ffff1316000005010013120213");
    let chunks = vec![
        Chunk::new(0, 6, 1),
        Chunk::new(6, 12, 1),
        Chunk::new(12, 19, 2),
        Chunk::new(19, 22, 1),
    ];
    let pools = Pools::new()
        .name("x")
        .chain(Root::Local { name: 0, slot: 7 }, &[], Tail::Read, 0);
    let program = Program::new(code, chunks, pools);
    let verified = program.into_verified(Caps::ALL).unwrap();
    assert_eq!(verified.slots(), [259, 65536, 8, 0]);
    let mut verifier = Verifier::new();
    let verified = verifier
        .verify_program(Caps::ALL, verified.into_program())
        .unwrap();
    assert_eq!(verified.slots(), [259, 65536, 8, 0]);
}

#[test]
fn errors_are_errors_and_say_all() {
    fn is_error<E: std::error::Error + Send + Sync + 'static>() {}
    fn is_shared<T: Send + Sync + Unpin + 'static>() {}
    is_error::<VerifyError>();
    is_error::<grain::Refusal>();
    is_error::<grain::Rejected>();
    is_error::<grain::ExplainError>();
    is_error::<PoolsFlaw>();
    is_error::<AttachError>();
    is_error::<ReadError>();
    is_error::<TableFlaw>();
    is_error::<grain::PoolError>();
    is_error::<grain::UnknownCap>();
    is_shared::<Verifier>();
    is_error::<grain::RejectedFile>();
    is_error::<grain::FileError>();
    is_error::<grain::TightenError>();
    is_shared::<grain::Verified>();
    is_shared::<grain::VerifiedFile>();
    is_shared::<grain::Explained<'static>>();
    let error = verify(Caps::ALL, &[0x0b], &whole(&[0x0b]), &Pools::new()).unwrap_err();
    let sentence = "chunk 0: the instruction at 0 needs 1 operand, and there are 0";
    assert_eq!(error.to_string(), format!("refused: {sentence}"));
    assert!(std::error::Error::source(&error).is_none());
    let refused = refusal::<()>(Err(error));
    assert_eq!(
        format!("{refused:>70}|{refused:.7}"),
        format!("{sentence:>70}|chunk 0")
    );
    assert_eq!(
        format!("{:<40}|", refused.line()),
        format!("{:<40}|", "underflow at=0 need=1 have=0")
    );
}

#[test]
fn the_library_has_a_version() {
    assert_eq!(grain::version(), env!("CARGO_PKG_VERSION"));
}

#[test]
fn a_short_list_is_an_error() {
    let code = bytes("0213");
    let said = verify_into(Caps::ALL, &code, &whole(&code), &Pools::new(), &mut []);
    assert_eq!(said, Err(VerifyError::TooFewDepths));
}

/// The numbers of a text, in order.
fn numbers(text: &str) -> Vec<u32> {
    let digits = text.split(|each: char| !each.is_ascii_digit());
    digits.filter_map(|number| number.parse().ok()).collect()
}

#[test]
fn each_instruction_prints_as_its_name_and_its_fields() {
    let mut named = 0;
    for tag in 0..=u8::MAX {
        let code = [tag, 1, 2, 3, 4, 5, 6];
        let found = instruction(&code, 0);
        assert_eq!(
            found.map(|found| found.mnemonic()),
            mnemonic(tag),
            "{tag:#04x}"
        );
        assert_eq!(Opcode::from_tag(tag).is_some(), found.is_some());
        let Some(found) = found else { continue };
        assert_eq!(found.bytes(), &code[..usize::from(found.width)]);
        let opcode = Opcode::from_tag(tag).unwrap();
        assert_eq!((found.opcode(), opcode.tag()), (Some(opcode), tag));
        assert_eq!(Opcode::try_from(tag), Ok(opcode));
        assert_eq!(opcode.name(), found.mnemonic());
        assert_eq!(opcode.width(), u32::from(found.width));
        assert_eq!(opcode.is_quiet(), found.is_quiet());
        assert!(found
            .fields()
            .map(|field| field.kind)
            .eq(opcode.fields().iter().copied()));
        let (decoded, values) = Opcode::decode(&code, 0).unwrap();
        assert_eq!(decoded, opcode);
        assert!(found
            .fields()
            .zip(values)
            .all(|(field, value)| field.value == value));
        let (instruction, next) = Instruction::decode(&code, 0).unwrap();
        assert_eq!(
            (instruction.opcode(), next),
            (opcode, u32::from(found.width))
        );
        assert_eq!(numbers(&format!("{instruction:?}")), {
            let fields = found.fields().map(|field| field.value);
            fields.collect::<Vec<_>>()
        });
        for end in 0..usize::from(found.width) {
            assert_eq!(Opcode::decode(&code[..end], 0), None);
            assert_eq!(Instruction::decode(&code[..end], 0), None);
        }
        let fields: String = found
            .fields()
            .map(|field| format!(" {}", field.value))
            .collect();
        assert_eq!(found.to_string(), format!("{}{fields}", found.mnemonic()));
        named += 1;
    }
    assert_eq!((named, Opcode::ALL.len()), (74, 74));
    let code = bytes("23070000005511");
    let decoded = Instruction::PushHandler { target: 7 };
    assert_eq!(Instruction::decode(&code, 0), Some((decoded, 5)));
    assert_eq!(Instruction::decode(&code, u32::MAX), None);
    let code = bytes("2107000000ffff");
    assert_eq!(
        instruction(&code, 0).unwrap().to_string(),
        "ITER_NEXT_INDEXED 7 65535"
    );
    assert_eq!(
        format!("{:>8}", instruction(&[0x13], 0).unwrap()),
        "  RETURN"
    );
}

#[test]
fn code_is_gone_through() {
    let code = bytes("023701000203001300");
    let mut left = instructions(&code);
    let seen: Vec<_> = left.by_ref().map(|(at, each)| (at, each.tag)).collect();
    assert_eq!(seen, [(0, 0x02), (1, 0x37), (7, 0x13)]);
    assert_eq!(
        (left.address(), left.is_whole(), left.next()),
        (8, false, None)
    );
    let mut whole = instructions(&code[..8]);
    assert_eq!((whole.by_ref().count(), whole.is_whole()), (3, true));
}

fn entry(address: u32, line: u32, column: u32) -> Entry {
    Entry {
        address,
        site: Site { line, column },
    }
}

#[test]
fn entries_are_listed() {
    let table = bytes("0400010503010b250702010900");
    let wanted = [
        entry(0, 1, 5),
        entry(3, 1, 11),
        entry(40, 7, 2),
        entry(41, 9, 0),
    ];
    assert_eq!(table_entries(&table).as_deref(), Ok(&wanted[..]));
    assert_eq!(table_entries(&table[..6]).as_deref(), Ok(&wanted[..1]));
    assert_eq!(table_entries(&[]).as_deref(), Ok(&[][..]));
    let mut few = [Entry::default(); 2];
    assert_eq!(table_entries_into(&table, &mut few), 4);
    assert_eq!(few, wanted[..2]);
}

#[test]
fn sites_are_listed() {
    let stream = bytes("040101000301020106");
    let site = |line, column| Some(Site { line, column });
    let wanted = [site(1, 1), None, site(1, 2), site(1, 6)];
    assert_eq!(stream_sites(&stream).as_deref(), Ok(&wanted[..]));
    let truncated = Err(ReadError::Flaw(TableFlaw::Truncated));
    assert_eq!(stream_sites(&stream[..8]), truncated);
    let mut few = [Site::default(); 1];
    assert_eq!(stream_sites_into(&stream, &mut few), Ok(4));
    assert_eq!(few[0].known(), site(1, 1));
    assert_eq!(
        stream_sites_into(&stream[..8], &mut few),
        Err(TableFlaw::Truncated)
    );
}

#[test]
fn chunks_are_tightened_or_stay() {
    let code = bytes("02020b0b0213");
    let mut chunks = whole(&code);
    assert_eq!(tighten(Caps::ALL, &code, &mut chunks, &Pools::new()), Ok(6));
    assert_eq!(chunks[0].max_stack, 2);
    chunks[0].max_stack = 1;
    let before = chunks;
    let said = tighten(Caps::ALL, &code, &mut chunks, &Pools::new());
    let (needed, declared) = (2, 1);
    assert_eq!(
        found(said),
        (None, Flaw::StackExceedsDeclared { needed, declared })
    );
    assert_eq!(chunks, before);
}

#[test]
fn positions_are_attached_and_taken_off() {
    let (code, pools) = sample();
    let mut program = Program::new(code.clone(), whole(&code).to_vec(), pools.clone());
    let positions = |table: &str, stream: &str| Positions {
        table: bytes(table),
        stream: bytes(stream),
    };
    let good = positions("02000105010107", "010207");
    assert_eq!(program.attach_positions(good.clone()), Ok(()));
    assert_eq!(program.positions(), Some(&good));
    assert_eq!(program.site(1), Some(Site { line: 1, column: 7 }));
    assert_eq!(program.chain_site(0), Some(Site { line: 2, column: 7 }));
    assert_eq!(
        program.entries().as_deref(),
        Ok(&[entry(0, 1, 5), entry(1, 1, 7)][..])
    );
    let sites = [Some(Site { line: 2, column: 7 })];
    assert_eq!(program.chain_sites().as_deref(), Ok(&sites[..]));
    let bad = [
        (
            positions("0200010501", "010207"),
            AttachError::Table(TableFlaw::Truncated),
        ),
        (
            positions("02000105020107", "010207"),
            AttachError::NoInstruction { at: 2 },
        ),
        (
            positions("02000105400107", "010207"),
            AttachError::NoInstruction { at: 64 },
        ),
        (
            positions("0100000a", "010207"),
            AttachError::NoLine { at: 0 },
        ),
        (
            positions("00", "0102"),
            AttachError::Stream(TableFlaw::Truncated),
        ),
        (
            positions("00", "00"),
            AttachError::ChainCount {
                slots: 0,
                positions: 1,
            },
        ),
    ];
    for (positions, wanted) in bad {
        assert_eq!(program.attach_positions(positions), Err(wanted));
        assert_eq!(program.positions(), Some(&good));
    }
    assert_eq!(program.verify(Caps::ALL), Ok(vec![2]));
    program.tighten(Caps::ALL).unwrap();
    assert_eq!(program.chunks()[0].max_stack, 2);
    assert_eq!(program.strip_positions(), Some(good));
    assert_eq!((program.site(1), program.strip_positions()), (None, None));
    let (own, _, of, positions) = program.into_parts();
    assert_eq!((own, of, positions), (code, pools, None));
}
