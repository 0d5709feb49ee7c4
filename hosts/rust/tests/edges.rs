//! Pools of garbage at the edge of a page: behind each list that the library reads stands a page that nobody may read, so
//! that a read past a list ends the test.
#![cfg(all(target_os = "linux", target_pointer_width = "64"))]
mod common;

use common::chance::Chance;
use common::model::{ModelPools, Table};
use common::programs::{constant, program, Program};
use grain::{
    check_stream, check_table, count_instructions, explain, instruction, site, stream_site,
    stream_sites_into, table_entries_into, tighten, verify_into, Case, ChainRow, Chunk, Constant,
    Entry, FlatPools, Site, StepRow, SwitchRow, VerifyError,
};
use std::collections::BTreeSet;
use std::ffi::{c_int, c_long, c_void};

extern "C" {
    fn mmap(
        at: *mut c_void,
        length: usize,
        prot: c_int,
        flags: c_int,
        file: c_int,
        from: c_long,
    ) -> *mut c_void;
    fn mprotect(at: *mut c_void, length: usize, prot: c_int) -> c_int;
    fn munmap(at: *mut c_void, length: usize) -> c_int;
}

const READ_AND_WRITE: c_int = 3;
const NONE: c_int = 0;
const PRIVATE_AND_ANONYMOUS: c_int = 0x22;
const PAGE: usize = 4096;

/// Some pages with one behind them that may not be read.
struct Pages {
    start: *mut u8,
    length: usize,
}

impl Pages {
    fn new(pages: usize) -> Pages {
        let length = pages * PAGE;
        // SAFETY: the mapping is new, and no other memory is touched.
        unsafe {
            let start = mmap(
                std::ptr::null_mut(),
                length + PAGE,
                READ_AND_WRITE,
                PRIVATE_AND_ANONYMOUS,
                -1,
                0,
            );
            assert_ne!(start as isize, -1);
            let start = start.cast::<u8>();
            assert_eq!(mprotect(start.add(length).cast(), PAGE, NONE), 0);
            Pages { start, length }
        }
    }

    /// A copy of a list that ends where the page does. The items are plain numbers, so that any bytes are some.
    fn hold<T: Copy>(&mut self, list: &[T]) -> &mut [T] {
        let bytes = std::mem::size_of_val(list);
        assert!(bytes <= self.length && self.length % std::mem::align_of::<T>() == 0);
        assert_eq!(std::mem::size_of::<T>() % std::mem::align_of::<T>(), 0);
        // SAFETY: the place lies in the pages, is aligned since sizes are whole numbers of alignments, and is written before
        // it is borrowed; the pages are borrowed as long as the list is.
        unsafe {
            let place = self.start.add(self.length - bytes).cast::<T>();
            std::ptr::copy_nonoverlapping(list.as_ptr(), place, list.len());
            std::slice::from_raw_parts_mut(place, list.len())
        }
    }

    /// The same with some bytes changed by chance.
    fn garble<T: Copy>(&mut self, chance: &mut Chance, list: &[T], one_in: usize) -> &mut [T] {
        let bytes = std::mem::size_of_val(list);
        self.hold(list);
        for at in self.length - bytes..self.length {
            if chance.one_in(one_in) {
                // SAFETY: the byte lies in the pages.
                unsafe { *self.start.add(at) = chance.next() as u8 & chance.next() as u8 };
            }
        }
        // SAFETY: as in `hold`; any bytes are numbers.
        unsafe {
            let place = self.start.add(self.length - bytes).cast::<T>();
            std::slice::from_raw_parts_mut(place, list.len())
        }
    }
}

impl Drop for Pages {
    fn drop(&mut self) {
        // SAFETY: the mapping is this one's, and nothing of it is borrowed any more.
        unsafe { munmap(self.start.cast(), self.length + PAGE) };
    }
}

/// The lists of a flat form.
struct Lists {
    constants: Vec<Constant>,
    names: Vec<u8>,
    starts: Vec<u32>,
    chains: Vec<ChainRow>,
    steps: Vec<StepRow>,
    switches: Vec<SwitchRow>,
    cases: Vec<Case>,
    ranges: Vec<u32>,
}

fn lists(pools: &ModelPools) -> Lists {
    let mut starts = vec![0];
    for name in &pools.names {
        starts.push(starts.last().unwrap() + name.len() as u32);
    }
    let chains = pools.chains.iter();
    let switches = pools.switches.iter();
    Lists {
        constants: pools
            .constants
            .iter()
            .map(|needed| constant(*needed))
            .collect(),
        names: pools.names.concat().into_bytes(),
        starts,
        chains: chains
            .clone()
            .map(|c| ChainRow::new(c.root, c.steps.len() as u32, c.tail, c.operands))
            .collect(),
        steps: chains
            .flat_map(|c| &c.steps)
            .map(|step| StepRow::from(*step))
            .collect(),
        switches: switches
            .clone()
            .map(|s| SwitchRow {
                cases: s.cases.len() as u32,
                ranges: s.ranges.len() as u32,
                otherwise: s.otherwise,
            })
            .collect(),
        cases: switches
            .clone()
            .flat_map(|s| s.cases.iter().copied())
            .collect(),
        ranges: switches.flat_map(|s| s.ranges.iter().copied()).collect(),
    }
}

/// The room for each list.
struct Room(Vec<Pages>);

/// What the library says of a program whose lists end where pages do, with one of its bytes changed.
fn judge(
    chance: &mut Chance,
    room: &mut Room,
    program: &Program,
    one_in: usize,
) -> Option<VerifyError> {
    let lists = lists(&program.pools);
    let [code, chunks, depths, constants, names, starts, chains, steps, switches, cases, ranges] =
        &mut room.0[..]
    else {
        panic!("a list without room");
    };
    let code = &*code.garble(chance, &program.code, 20 * one_in);
    let chunks = chunks.hold::<Chunk>(&program.chunks);
    let depths = depths.hold(&vec![0u16; chunks.len()]);
    let pools = FlatPools::new()
        .constants(constants.garble(chance, &lists.constants, one_in))
        .names(
            names.garble(chance, &lists.names, one_in),
            starts.garble(chance, &lists.starts, one_in),
        )
        .operators(program.pools.operators)
        .op_assignments(program.pools.op_assignments)
        .fragments(program.pools.fragments)
        .functions(program.pools.functions)
        .chains(
            chains.garble(chance, &lists.chains, one_in),
            steps.garble(chance, &lists.steps, one_in),
        )
        .switches(
            switches.garble(chance, &lists.switches, one_in),
            cases.garble(chance, &lists.cases, one_in),
            ranges.garble(chance, &lists.ranges, one_in),
        );
    let said = verify_into(program.caps, code, chunks, pools, depths).err();
    assert_eq!(
        pools.check().is_err(),
        matches!(said, Some(VerifyError::NotFlat(_)))
    );
    let again = tighten(program.caps, code, chunks, pools).err();
    assert_eq!(said, again);
    if let Some(refusal) = said.as_ref().and_then(VerifyError::refusal) {
        let _ = (
            refusal.to_string(),
            refusal.line(),
            refusal.constant(pools),
            refusal.chain_place(code, pools),
        );
        let explained = explain(program.caps, code, chunks, pools, refusal).unwrap();
        let _ = explained.to_string();
    }
    said
}

fn room() -> Room {
    Room((0..11).map(|_| Pages::new(4)).collect())
}

#[test]
fn no_list_of_pools_is_read_past_its_end() {
    let (table, mut chance, mut room) = (Table::read(), Chance(11), room());
    let (mut accepted, mut not_flat, mut flaws) = (0, 0, BTreeSet::new());
    for round in 0..4000 {
        let program = program(&mut chance, &table);
        let one_in = [usize::MAX, 1000, 100, 20, 3][round % 5];
        match judge(&mut chance, &mut room, &program, one_in.min(1 << 40)) {
            None => accepted += 1,
            Some(VerifyError::NotFlat(_)) => not_flat += 1,
            Some(VerifyError::Refused(refusal)) => {
                let text = refusal.line();
                flaws.insert(text.split(' ').next().map(String::from));
            }
            Some(failure) => panic!("{failure:?}"),
        }
    }
    assert!(
        accepted > 400 && not_flat > 400,
        "{accepted} accepted, {not_flat} not flat"
    );
    assert!(flaws.len() >= 8, "{flaws:?}");
}

#[test]
fn no_code_or_table_is_read_past_its_end() {
    let (mut chance, mut bytes) = (Chance(12), Pages::new(1));
    let (mut entries, mut sites) = (Pages::new(1), Pages::new(1));
    for _ in 0..20_000 {
        let len = chance.below(40);
        let small = chance.one_of(&[0x07, 0x1f, 0x7f, 0xff]);
        let made: Vec<u8> = (0..len).map(|_| chance.next() as u8 & small).collect();
        let made = &*bytes.hold(&made);
        let room = chance.below(6);
        let entries = entries.hold(&vec![Entry::default(); room]);
        let sites = sites.hold(&vec![Site::default(); room]);
        let _ = (
            count_instructions(made),
            check_table(made),
            check_stream(made),
        );
        for at in 0..len as u32 + 2 {
            let shown = instruction(made, at).map(|found| found.to_string());
            assert_eq!(shown.is_some(), instruction(made, at).is_some());
        }
        let _ = (site(made, 5), stream_site(made, 2));
        let _ = (
            table_entries_into(made, entries),
            stream_sites_into(made, sites),
        );
    }
}

/// Reads one item past a list, where the test below sets the variable.
#[test]
fn a_read_past_a_list() {
    if std::env::var_os("GRAIN_READ_PAST").is_some() {
        let mut pages = Pages::new(1);
        let list = pages.hold(&[1u8, 2, 3]);
        // SAFETY: none; that it ends the process is what the test below is about.
        let past = unsafe { std::ptr::read_volatile(list.as_ptr().add(list.len())) };
        println!("{past} stands behind the list");
    }
}

#[test]
fn a_read_past_a_list_ends_the_process() {
    use std::os::unix::process::ExitStatusExt;
    let own = std::env::current_exe().unwrap();
    let mut read = std::process::Command::new(own);
    read.args(["--exact", "a_read_past_a_list"]);
    let ended = |read: &mut std::process::Command| read.output().unwrap().status.signal();
    assert_eq!(ended(&mut read), None);
    assert!(ended(read.env("GRAIN_READ_PAST", "1")).is_some());
}
