//! The library's C functions, records and numbers, as `grain.h` has them.
// The whole interface is declared, used here or not, so that it can be compared with the header.
#![allow(dead_code)]
use crate::explained::Row;
use crate::items::Range;
use crate::rows::{Case, ChainRow, Constant, StepRow, SwitchRow};
use crate::tables::{Entry, Site};
use crate::Chunk;
use std::ffi::{c_char, c_int, c_void};
use std::mem::size_of;

pub(crate) const ACCEPTED: u32 = 0;
pub(crate) const REFUSED: u32 = 1;
pub(crate) const SHORT: u32 = 2;
pub(crate) const OUT_OF_MEMORY: u32 = 3;
pub(crate) const NOT_FLAT: u32 = 4;
pub(crate) const TOO_MUCH_WORK: u32 = 5;
pub(crate) const NO_CHUNK: u32 = 6;
pub(crate) const BAD_CODE: u32 = 7;
pub(crate) const STOPPED: u32 = 8;
pub(crate) const MALFORMED: u32 = 9;
pub(crate) const TOO_LONG: u32 = 10;
pub(crate) const BAD_LIMIT: u32 = 11;
pub(crate) const NOT_RESTORABLE: u32 = 12;
pub(crate) const NO_SCRIPT: u32 = 13;
pub(crate) const NO_NAME: u32 = 14;
pub(crate) const NOT_NOW: u32 = 15;
pub(crate) const BAD_VALUE: u32 = 16;
pub(crate) const FOREIGN_CONSTANT: u32 = 17;

pub(crate) const EVENT_RETURNED: u32 = 1;
pub(crate) const EVENT_CALLS: u32 = 2;
pub(crate) const EVENT_PAUSED: u32 = 3;
pub(crate) const EVENT_FAULTED: u32 = 4;

pub(crate) const CAUSE_TOO_LARGE: u32 = 1;
pub(crate) const DECLARED_CAPS: u32 = 15;
pub(crate) const DEPTH_MAX: u32 = 256;
pub(crate) const VALUE_UNIT: u32 = 0;
pub(crate) const VALUE_FALSE: u32 = 1;
pub(crate) const VALUE_TRUE: u32 = 2;
pub(crate) const VALUE_INTEGER: u32 = 3;
pub(crate) const VALUE_CHARACTER: u32 = 4;
pub(crate) const VALUE_TEXT: u32 = 5;
pub(crate) const VALUE_RANGE: u32 = 6;
pub(crate) const VALUE_RANGE_INCLUSIVE: u32 = 7;
pub(crate) const VALUE_ARRAY: u32 = 8;
pub(crate) const VALUE_BLOB: u32 = 9;
pub(crate) const VALUE_MAP: u32 = 10;
pub(crate) const VALUE_FN_PTR: u32 = 11;
pub(crate) const VALUE_SHARED: u32 = 12;
pub(crate) const VALUE_OPERATOR: u32 = 14;
pub(crate) const VALUE_FLOAT: u32 = 15;

pub(crate) const INTERFACE: u32 = 3;
pub(crate) const WHOLE_PROGRAM: u64 = u64::MAX;
pub(crate) const NO_ADDRESS: u32 = u32::MAX;
pub(crate) const NO_BASE: u32 = u32::MAX;
pub(crate) const NO_LIMIT: u64 = u64::MAX;
/// Room for the longest text, with the 0 that ends it.
pub(crate) const TEXT_SIZE: usize = 129;

#[repr(C)]
pub(crate) struct Pools {
    pub(crate) constants: *const Constant,
    pub(crate) constants_len: usize,
    pub(crate) names: *const u8,
    pub(crate) names_len: usize,
    pub(crate) starts: *const u32,
    pub(crate) starts_len: usize,
    pub(crate) operators: usize,
    pub(crate) op_assignments: usize,
    pub(crate) fragments: usize,
    pub(crate) functions: usize,
    pub(crate) chains: *const ChainRow,
    pub(crate) chains_len: usize,
    pub(crate) steps: *const StepRow,
    pub(crate) steps_len: usize,
    pub(crate) switches: *const SwitchRow,
    pub(crate) switches_len: usize,
    pub(crate) cases: *const Case,
    pub(crate) cases_len: usize,
    pub(crate) ranges: *const u32,
    pub(crate) ranges_len: usize,
}

#[repr(C)]
pub(crate) struct Program {
    pub(crate) code: *const u8,
    pub(crate) code_len: usize,
    pub(crate) chunks: *const Chunk,
    pub(crate) chunks_len: usize,
    pub(crate) pools: Pools,
}

/// What the library keeps between calls, if anything.
#[repr(C)]
#[derive(Debug)]
pub(crate) struct Scratch {
    pub(crate) made: bool,
    pub(crate) block: *mut c_void,
}

impl Scratch {
    /// One that keeps nothing.
    pub(crate) const NONE: Scratch = Scratch {
        made: false,
        block: std::ptr::null_mut(),
    };
}

/// A file, of which only the library knows what it is.
#[repr(C)]
pub(crate) struct File {
    _own: [u8; 0],
}

#[repr(C)]
#[derive(Clone, Copy, Debug)]
pub(crate) struct Function {
    pub(crate) name: u32,
    pub(crate) parameters: u32,
    pub(crate) is_private: bool,
    pub(crate) is_typed: bool,
    pub(crate) this_type: u32,
}

#[repr(C)]
#[derive(Clone, Copy, Debug)]
pub(crate) struct OpAssignment {
    pub(crate) op_assign_name: u32,
    pub(crate) op_name: u32,
}

#[repr(C)]
#[derive(Clone, Copy, Debug, PartialEq)]
pub(crate) struct Value {
    pub(crate) tag: u32,
    pub(crate) count: u32,
    pub(crate) number: i64,
}

/// The number of a row that has a float: its bits.
pub(crate) fn float_of(row: &Value) -> f64 {
    f64::from_bits(row.number as u64)
}

#[repr(C)]
pub(crate) struct Contents {
    pub(crate) size: usize,
    pub(crate) program: Program,
    pub(crate) caps: u16,
    pub(crate) has_source: bool,
    pub(crate) has_positions: bool,
    pub(crate) id_low: u64,
    pub(crate) id_high: u64,
    pub(crate) source: *const u8,
    pub(crate) source_len: usize,
    pub(crate) functions: *const Function,
    pub(crate) functions_len: usize,
    pub(crate) parameters: *const u32,
    pub(crate) parameters_len: usize,
    pub(crate) constants: *const u32,
    pub(crate) constants_len: usize,
    pub(crate) values: *const Value,
    pub(crate) values_len: usize,
    pub(crate) texts: *const u8,
    pub(crate) texts_len: usize,
    pub(crate) operators: *const Value,
    pub(crate) operators_len: usize,
    pub(crate) operator_texts: *const u8,
    pub(crate) operator_texts_len: usize,
    pub(crate) op_assignments: *const OpAssignment,
    pub(crate) op_assignments_len: usize,
    pub(crate) positions: usize,
    pub(crate) step_flags: *const u8,
    pub(crate) step_flags_len: usize,
    pub(crate) ranges: *const Range,
    pub(crate) ranges_len: usize,
    pub(crate) table: *const u8,
    pub(crate) table_len: usize,
    pub(crate) stream: *const u8,
    pub(crate) stream_len: usize,
    pub(crate) chain_steps: *const u32,
    pub(crate) chain_steps_len: usize,
    pub(crate) switch_cases: *const u32,
    pub(crate) switch_cases_len: usize,
    pub(crate) switch_ranges: *const u32,
    pub(crate) switch_ranges_len: usize,
    pub(crate) function_parameters: *const u32,
    pub(crate) function_parameters_len: usize,
}

/// Room for a file that a call writes, and how long the file is.
#[repr(C)]
pub(crate) struct Room {
    pub(crate) bytes: *mut u8,
    pub(crate) len: usize,
    pub(crate) size: usize,
}

impl Room {
    /// A list as room, which must be borrowed until the call.
    pub(crate) fn of(list: &mut [u8]) -> Room {
        Room {
            bytes: list.as_mut_ptr(),
            len: list.len(),
            size: 0,
        }
    }
}

#[repr(C)]
pub(crate) struct Limits {
    pub(crate) size: usize,
    pub(crate) cases: usize,
    pub(crate) depth: u32,
}

#[repr(C)]
#[derive(Clone, Copy, Debug, Default, PartialEq, Eq, Hash)]
pub(crate) struct ReadError {
    pub(crate) cause: u32,
    pub(crate) part: u32,
    pub(crate) index: u64,
    pub(crate) at: u64,
    pub(crate) limit: u64,
}

#[repr(C)]
#[derive(Clone, Copy, Debug, Default, PartialEq, Eq, Hash)]
pub(crate) struct Refusal {
    pub(crate) flaw: u32,
    pub(crate) chunk: u64,
    pub(crate) at: u64,
    pub(crate) first: u64,
    pub(crate) second: u64,
}

#[repr(C)]
#[derive(Clone, Copy, Default)]
pub(crate) struct Report {
    pub(crate) refusal: Refusal,
    pub(crate) visited: u64,
}

#[repr(C)]
#[derive(Clone, Copy, Default)]
pub(crate) struct Field {
    pub(crate) kind: u32,
    pub(crate) value: u32,
}

#[repr(C)]
#[derive(Clone, Copy, Default)]
pub(crate) struct Instruction {
    pub(crate) tag: u8,
    pub(crate) width: u8,
    pub(crate) fields: [Field; 3],
}

#[repr(C)]
#[derive(Clone, Copy, Debug, Default)]
pub(crate) struct Base {
    pub(crate) operands: u32,
    pub(crate) iterators: u32,
    pub(crate) next: u32,
}

#[repr(C)]
#[derive(Clone, Copy, Default)]
pub(crate) struct Explanation {
    pub(crate) rows: usize,
    pub(crate) path: usize,
    pub(crate) other: usize,
    pub(crate) bases: usize,
    pub(crate) refusal: Refusal,
}

#[repr(C)]
#[derive(Clone, Copy, Default)]
pub(crate) struct PoolsFlaw {
    pub(crate) list: u32,
    pub(crate) index: u64,
}

const _: () = assert!(size_of::<Chunk>() == 12);
const _: () = assert!(size_of::<Constant>() == 4);
const _: () = assert!(size_of::<ChainRow>() == 24);
const _: () = assert!(size_of::<StepRow>() == 20);
const _: () = assert!(size_of::<SwitchRow>() == 12);
const _: () = assert!(size_of::<Case>() == 8);
const _: () = assert!(size_of::<Pools>() == 160);
const _: () = assert!(size_of::<Program>() == 192);
const _: () = assert!(size_of::<Scratch>() == 16);
const _: () = assert!(size_of::<Refusal>() == 40);
const _: () = assert!(size_of::<Report>() == 48);
const _: () = assert!(size_of::<Field>() == 8);
const _: () = assert!(size_of::<Instruction>() == 28);
const _: () = assert!(size_of::<Site>() == 8);
const _: () = assert!(size_of::<Entry>() == 12);
const _: () = assert!(size_of::<Row>() == 20);
const _: () = assert!(size_of::<Base>() == 12);
const _: () = assert!(size_of::<Explanation>() == 72);
const _: () = assert!(size_of::<PoolsFlaw>() == 16);
const _: () = assert!(size_of::<Function>() == 16);
const _: () = assert!(size_of::<OpAssignment>() == 8);
const _: () = assert!(size_of::<Range>() == 24);
const _: () = assert!(size_of::<Value>() == 16);
const _: () = assert!(size_of::<Contents>() == 504);
const _: () = assert!(size_of::<Limits>() == 24);
const _: () = assert!(size_of::<ReadError>() == 32);
const _: () = assert!(size_of::<Room>() == 24);

/// Takes a piece of a listing. It returns other than 0 to end the listing.
pub(crate) type Put =
    extern "C" fn(context: *mut c_void, text: *const c_char, length: usize) -> c_int;

// A library of another interface has no such symbol, and so doesn't link.
#[used]
static INTERFACE_OF_PACKAGE: &u32 =
    // SAFETY: the symbol is a constant of the library, which nothing writes.
    unsafe { &grain_interface_3 };

extern "C" {
    static grain_interface_3: u32;

    pub(crate) fn grain_verify(
        scratch: *mut Scratch,
        caps: u16,
        limit: u64,
        program: *const Program,
        depths: *mut u16,
        depths_len: usize,
        slots: *mut u32,
        report: *mut Report,
    ) -> u32;
    pub(crate) fn grain_tighten(
        scratch: *mut Scratch,
        caps: u16,
        limit: u64,
        program: *const Program,
        tightened: *mut Chunk,
        tightened_len: usize,
        report: *mut Report,
    ) -> u32;
    pub(crate) fn grain_scratch_free(scratch: *mut Scratch);
    pub(crate) fn grain_check_pools(pools: *const Pools, flaw: *mut PoolsFlaw) -> bool;
    pub(crate) fn grain_explain(
        caps: u16,
        program: *const Program,
        chunk: usize,
        rows: *mut Row,
        rows_len: usize,
        bases: *mut Base,
        bases_len: usize,
        explanation: *mut Explanation,
    ) -> u32;
    pub(crate) fn grain_listing(
        caps: u16,
        program: *const Program,
        chunk: usize,
        put: Put,
        context: *mut c_void,
    ) -> u32;
    pub(crate) fn grain_file_read(
        file: *mut *mut File,
        bytes: *const u8,
        bytes_len: usize,
        limits: *const Limits,
        error: *mut ReadError,
    ) -> u32;
    pub(crate) fn grain_file_contents(file: *const File) -> *const Contents;
    pub(crate) fn grain_file_verify(
        scratch: *mut Scratch,
        file: *const File,
        caps: u16,
        limit: u64,
        depths: *mut u16,
        depths_len: usize,
        slots: *mut u32,
        report: *mut Report,
    ) -> u32;
    pub(crate) fn grain_file_free(file: *mut File);
    pub(crate) fn grain_file_tighten(
        bytes: *const u8,
        bytes_len: usize,
        limits: *const Limits,
        limit: u64,
        tightened: *mut Room,
        error: *mut ReadError,
        report: *mut Report,
    ) -> u32;
    pub(crate) fn grain_file_strip(
        bytes: *const u8,
        bytes_len: usize,
        limits: *const Limits,
        stripped: *mut Room,
        sidecar: *mut Room,
        error: *mut ReadError,
    ) -> u32;
    pub(crate) fn grain_read_error_text(
        error: *const ReadError,
        text: *mut c_char,
        size: usize,
    ) -> usize;
    pub(crate) fn grain_refusal_text(
        refusal: *const Refusal,
        text: *mut c_char,
        size: usize,
    ) -> usize;
    pub(crate) fn grain_instruction_text(
        code: *const u8,
        code_len: usize,
        at: usize,
        text: *mut c_char,
        size: usize,
    ) -> usize;
    pub(crate) fn grain_count_instructions(
        code: *const u8,
        code_len: usize,
        count: *mut usize,
        damage: *mut usize,
    ) -> bool;
    pub(crate) fn grain_instruction(
        code: *const u8,
        code_len: usize,
        at: usize,
        instruction: *mut Instruction,
    ) -> bool;
    pub(crate) fn grain_is_quiet(tag: u8) -> bool;
    pub(crate) fn grain_table_place(
        table: *const u8,
        table_len: usize,
        address: u32,
        place: *mut Site,
    ) -> bool;
    pub(crate) fn grain_check_table(table: *const u8, table_len: usize, detail: *mut u64) -> u32;
    pub(crate) fn grain_table_entries(
        table: *const u8,
        table_len: usize,
        entries: *mut Entry,
        entries_len: usize,
    ) -> usize;
    pub(crate) fn grain_stream_place(
        stream: *const u8,
        stream_len: usize,
        index: u32,
        place: *mut Site,
    ) -> bool;
    pub(crate) fn grain_check_stream(stream: *const u8, stream_len: usize, detail: *mut u64)
        -> u32;
    pub(crate) fn grain_stream_places(
        stream: *const u8,
        stream_len: usize,
        places: *mut Site,
        places_len: usize,
        count: *mut usize,
    ) -> bool;
    pub(crate) fn grain_status_text(status: u32) -> *const c_char;
    pub(crate) fn grain_interface() -> u32;
    pub(crate) fn grain_version() -> *const c_char;
}

/// A state of a script, of which only the library knows what it is.
#[repr(C)]
pub(crate) struct State {
    _own: [u8; 0],
}

#[repr(C)]
pub(crate) struct Bounds {
    pub(crate) value_size: usize,
    pub(crate) value_depth: usize,
    pub(crate) calls: usize,
    pub(crate) runs: usize,
    pub(crate) printed: usize,
    pub(crate) memory: usize,
}

#[repr(C)]
pub(crate) struct Module {
    pub(crate) name: *const c_char,
    pub(crate) name_len: usize,
    pub(crate) source: *const c_char,
    pub(crate) source_len: usize,
}

#[repr(C)]
pub(crate) struct Values {
    pub(crate) rows: *const Value,
    pub(crate) rows_len: usize,
    pub(crate) texts: *const u8,
    pub(crate) texts_len: usize,
    pub(crate) count: u32,
}

impl Default for Values {
    fn default() -> Values {
        Values {
            rows: std::ptr::null(),
            rows_len: 0,
            texts: std::ptr::null(),
            texts_len: 0,
            count: 0,
        }
    }
}

#[repr(C)]
#[derive(Default)]
pub(crate) struct Failure {
    pub(crate) kind: u32,
    pub(crate) line: u32,
    pub(crate) column: u32,
    pub(crate) at: usize,
}

#[repr(C)]
pub(crate) struct Asked {
    pub(crate) name: *const c_char,
    pub(crate) name_len: usize,
    pub(crate) values: Values,
}

impl Default for Asked {
    fn default() -> Asked {
        Asked {
            name: std::ptr::null(),
            name_len: 0,
            values: Values::default(),
        }
    }
}

extern "C" {
    pub(crate) fn grain_state_compile(
        state: *mut *mut State,
        source: *const c_char,
        source_len: usize,
        bounds: *const Bounds,
        text: *mut c_char,
        text_size: usize,
    ) -> u32;
    pub(crate) fn grain_state_compile_modules(
        state: *mut *mut State,
        source: *const c_char,
        source_len: usize,
        modules: *const Module,
        modules_len: usize,
        bounds: *const Bounds,
        text: *mut c_char,
        text_size: usize,
    ) -> u32;
    pub(crate) fn grain_state_load(
        state: *mut *mut State,
        bytes: *const u8,
        bytes_len: usize,
        caps: u16,
        limit: u64,
        limits: *const Limits,
        bounds: *const Bounds,
        error: *mut ReadError,
        report: *mut Report,
    ) -> u32;
    pub(crate) fn grain_state_another(
        other: *mut *mut State,
        state: *mut State,
        bounds: *const Bounds,
    ) -> u32;
    pub(crate) fn grain_state_file(state: *mut State, file: *mut Room) -> u32;
    pub(crate) fn grain_state_free(state: *mut State);
    pub(crate) fn grain_state_register(
        state: *mut State,
        name: *const c_char,
        name_len: usize,
        parameters: u32,
    ) -> u32;
    pub(crate) fn grain_state_set(
        state: *mut State,
        name: *const c_char,
        name_len: usize,
        value: *const Values,
    ) -> u32;
    pub(crate) fn grain_state_get(
        state: *mut State,
        name: *const c_char,
        name_len: usize,
        value: *mut Values,
    ) -> u32;
    pub(crate) fn grain_state_reset(state: *mut State);
    pub(crate) fn grain_state_begin(
        state: *mut State,
        name: *const c_char,
        name_len: usize,
        arguments: *const Values,
    ) -> u32;
    pub(crate) fn grain_state_resume(state: *mut State, turns: u64, used: *mut u64) -> u32;
    pub(crate) fn grain_state_asked(state: *mut State, asked: *mut Asked) -> u32;
    pub(crate) fn grain_state_receiver(state: *mut State, value: *const Values) -> u32;
    pub(crate) fn grain_state_answer(state: *mut State, value: *const Values) -> u32;
    pub(crate) fn grain_state_throw(state: *mut State, value: *const Values) -> u32;
    pub(crate) fn grain_state_fail(state: *mut State, why: *const c_char, why_len: usize) -> u32;
    pub(crate) fn grain_state_stop(state: *mut State);
    pub(crate) fn grain_state_dropped(state: *mut State, values: *mut Values) -> u32;
    pub(crate) fn grain_state_failure(state: *mut State, failure: *mut Failure) -> u32;
    pub(crate) fn grain_state_fault(state: *mut State, text: *mut c_char, size: usize) -> usize;
    pub(crate) fn grain_state_memory(state: *const State) -> usize;
    pub(crate) fn grain_state_printed(state: *mut State, text: *mut c_char, size: usize) -> usize;
    pub(crate) fn grain_state_take_printed(state: *mut State);
}
