//! Program files.
use crate::capabilities::Caps;
use crate::error::{ExplainError, VerifyError};
use crate::explained::{explain, Explained, Subject};
use crate::file_error::FileError;
use crate::flat::FlatPools;
use crate::items::{FileChain, FileFunction, FileSteps, FileSwitch, OpAssignment, Range};
use crate::limits::Limits;
use crate::raw;
use crate::refusal::Refusal;
use crate::rows::{Case, ChainRow, StepRow, SwitchRow};
use crate::tables::{site, stream_site, Site};
use crate::values::{Operator, Value, Values};
use crate::verified::{Rejected, Verified};
use crate::verifier::{verdict, zeroed, Found, Room};
use crate::Chunk;
use std::fmt;
use std::ptr::{self, NonNull};
use std::slice;
use std::str;

/// A program file that was read (FORMAT.md, "Program files"): all that the program has.
///
/// The program is unverified until [`ProgramFile::verify`] accepts it. A program has at most one file, so that the bytes
/// may be hashed, signed and compared in place of it, and a host that writes it again writes these. [`ProgramFile::tighten`] and
/// [`ProgramFile::strip`] write the file of a program that is changed. Threads may share one.
///
/// ```
/// use grain::{Caps, FileError, Limits, ProgramFile, Value};
///
/// // `Unit`, `Return`, and the constant 42.
/// let bytes = b"\0grn\x02\0\0\0\0\x02\x02\x13\0\x02\x01\0\0\x01\x03\x54\0\0\0\0\0\0";
/// let file = ProgramFile::read(bytes, &Limits::default())?;
/// assert_eq!(file.code(), [0x02, 0x13]);
/// assert_eq!(file.constants().next(), Some(Value::Integer(42)));
/// assert_eq!(file.verify(Caps::NONE)?, [1]);
///
/// let error = ProgramFile::read(&bytes[..9], &Limits::default()).unwrap_err();
/// assert_eq!(error.to_string(), "byte 9, in the code: the file ends within a field");
/// # Ok::<(), Box<dyn std::error::Error>>(())
/// ```
pub struct ProgramFile {
    file: NonNull<raw::File>,
    contents: NonNull<raw::Contents>,
}

// SAFETY: the file is this value's alone, and that it may be handed to another thread is proved of the library's handle.
unsafe impl Send for ProgramFile {}

// SAFETY: nothing writes what a file has before it is freed, and only a drop frees it.
unsafe impl Sync for ProgramFile {}

impl Drop for ProgramFile {
    fn drop(&mut self) {
        // SAFETY: the library made the file, and nothing borrows it any more.
        unsafe { raw::grain_file_free(self.file.as_ptr()) }
    }
}

impl fmt::Debug for ProgramFile {
    fn fmt(&self, f: &mut fmt::Formatter<'_>) -> fmt::Result {
        f.debug_struct("ProgramFile")
            .field("source", &self.source())
            .field("code", &self.code().len())
            .field("chunks", &self.chunks().len())
            .finish_non_exhaustive()
    }
}

impl TryFrom<&[u8]> for ProgramFile {
    type Error = FileError;

    /// Reads a file within the usual limits.
    fn try_from(bytes: &[u8]) -> Result<ProgramFile, FileError> {
        ProgramFile::read(bytes, &Limits::default())
    }
}

/// The pools of the program.
impl<'a> From<&'a ProgramFile> for FlatPools<'a> {
    fn from(file: &'a ProgramFile) -> FlatPools<'a> {
        file.pools()
    }
}

/// The list at a pointer of the library's. That of an empty list is non-null and must not be dereferenced.
///
/// # Safety
/// Otherwise it points to as many items, which don't change during the lifetime.
unsafe fn list<'a, T>(items: *const T, len: usize) -> &'a [T] {
    if len == 0 {
        &[]
    } else {
        // SAFETY: the caller says so.
        unsafe { slice::from_raw_parts(items, len) }
    }
}

/// A list of the contents.
macro_rules! contents {
    ($record:expr, $items:ident, $len:ident) => {{
        let record = $record;
        // SAFETY: the contents belong to the file, which `self` borrows, and nothing writes them before it is freed.
        unsafe { list(record.$items, record.$len) }
    }};
}

impl ProgramFile {
    /// Reads a file within the limits. It goes over the bytes once, and keeps none of them.
    ///
    /// # Errors
    /// [`FileError::Malformed`] with the first thing that is wrong, or why nothing was read.
    pub fn read(bytes: &[u8], limits: &Limits) -> Result<ProgramFile, FileError> {
        let (mut file, mut error) = (ptr::null_mut(), raw::ReadError::default());
        let limits = limits.record();
        // SAFETY: the bytes and the records live for the call, and nothing else reads what is written.
        let status = unsafe {
            raw::grain_file_read(&mut file, bytes.as_ptr(), bytes.len(), &limits, &mut error)
        };
        match NonNull::new(file) {
            Some(file) if status == raw::ACCEPTED => {
                // SAFETY: the library made the file. Its contents are a record of the file, which stays where it is.
                let contents = unsafe { NonNull::from(&*raw::grain_file_contents(file.as_ptr())) };
                Ok(ProgramFile { file, contents })
            }
            _ => Err(FileError::of(status, error)),
        }
    }

    fn contents(&self) -> &raw::Contents {
        // SAFETY: the record belongs to the file, and nothing writes it before the file is freed.
        unsafe { self.contents.as_ref() }
    }

    /// The capabilities that the program declares, without bits that aren't capabilities. A program that declares such a bit is
    /// refused.
    #[must_use]
    pub fn caps(&self) -> Caps {
        Caps::from_bits_truncate(self.contents().caps)
    }

    /// The number of the program.
    #[must_use]
    pub fn id(&self) -> u128 {
        u128::from(self.contents().id_high) << 64 | u128::from(self.contents().id_low)
    }

    /// What the source is called.
    #[must_use]
    pub fn source(&self) -> Option<&str> {
        let source = contents!(self.contents(), source, source_len);
        self.contents()
            .has_source
            .then(|| str::from_utf8(source).unwrap_or_default())
    }

    /// The code.
    #[must_use]
    pub fn code(&self) -> &[u8] {
        contents!(&self.contents().program, code, code_len)
    }

    /// The chunks: that of the top level, and then those of the functions.
    #[must_use]
    pub fn chunks(&self) -> &[Chunk] {
        contents!(&self.contents().program, chunks, chunks_len)
    }

    /// The pools, which can be verified and explained. They borrow the file.
    #[must_use]
    pub fn pools(&self) -> FlatPools<'_> {
        let pools = &self.contents().program.pools;
        FlatPools::new()
            .constants(contents!(pools, constants, constants_len))
            .names(
                contents!(pools, names, names_len),
                contents!(pools, starts, starts_len),
            )
            .operators(pools.operators)
            .op_assignments(pools.op_assignments)
            .fragments(pools.fragments)
            .functions(pools.functions)
            .chains(
                contents!(pools, chains, chains_len),
                contents!(pools, steps, steps_len),
            )
            .switches(
                contents!(pools, switches, switches_len),
                contents!(pools, cases, cases_len),
                contents!(pools, ranges, ranges_len),
            )
    }

    /// The names.
    pub fn names(&self) -> impl ExactSizeIterator<Item = &str> + '_ {
        let names = self.name_bytes();
        self.name_starts()
            .windows(2)
            .map(move |span| name_between(names, span[0], span[1]))
    }

    /// The name with an index.
    #[must_use]
    pub fn name(&self, index: u32) -> Option<&str> {
        let span = self.name_starts().get(index as usize..)?;
        Some(name_between(
            self.name_bytes(),
            *span.first()?,
            *span.get(1)?,
        ))
    }

    fn name_bytes(&self) -> &[u8] {
        contents!(&self.contents().program.pools, names, names_len)
    }

    fn name_starts(&self) -> &[u32] {
        contents!(&self.contents().program.pools, starts, starts_len)
    }

    /// The functions.
    pub fn functions(&self) -> impl Iterator<Item = FileFunction<'_>> + '_ {
        indices(self.contents().functions_len).filter_map(|index| self.function(index))
    }

    /// The function with an index. Its chunk has the next index.
    #[must_use]
    pub fn function(&self, index: u32) -> Option<FileFunction<'_>> {
        let contents = self.contents();
        let rows: &[raw::Function] = contents!(contents, functions, functions_len);
        let begins: &[u32] = contents!(contents, function_parameters, function_parameters_len);
        let parameters: &[u32] = contents!(contents, parameters, parameters_len);
        let index = index as usize;
        let row = rows.get(index)?;
        Some(FileFunction {
            name: row.name,
            parameters: part(parameters, *begins.get(index)?, row.parameters)?,
            is_private: row.is_private,
            this_type: row.is_typed.then_some(row.this_type),
            chunk: *self.chunks().get(index + 1)?,
        })
    }

    /// The index of the chunk that a call of a name with as many arguments runs: that of the first function whose name has the
    /// same text, with as many parameters, and declared for receivers of no type (RUNNING.md, "Callees"). It goes over all
    /// functions.
    ///
    /// ```
    /// use grain::ProgramFile;
    ///
    /// // fn fib(n) { .. }
    /// let file = ProgramFile::try_from(&include_bytes!("../examples/fib.grain")[..])?;
    /// let fib = file.names().position(|name| name == "fib").unwrap() as u32;
    /// assert_eq!((file.callee(fib, 1), file.callee(fib, 2)), (Some(1), None));
    /// # Ok::<(), grain::FileError>(())
    /// ```
    #[must_use]
    pub fn callee(&self, name: u32, arguments: usize) -> Option<usize> {
        let text = self.name(name)?;
        let mut functions = self.functions();
        let found = functions.position(|function| {
            function.parameters.len() == arguments
                && function.this_type.is_none()
                && self.name(function.name) == Some(text)
        });
        found.map(|index| index + 1)
    }

    /// The constants, in order.
    pub fn constants(&self) -> Values<'_> {
        let contents = self.contents();
        Values::new(
            contents!(contents, values, values_len),
            contents!(contents, texts, texts_len),
            contents.constants_len,
        )
    }

    /// The constant with an index. What it holds isn't gone through, except for the bytes of a text.
    #[must_use]
    pub fn constant(&self, index: u32) -> Option<Value<'_>> {
        let contents = self.contents();
        let begins: &[u32] = contents!(contents, constants, constants_len);
        let values: &[raw::Value] = contents!(contents, values, values_len);
        let texts = contents!(contents, texts, texts_len);
        let begin = *begins.get(index as usize)? as usize;
        Values::new(values.get(begin..)?, texts, 1).first()
    }

    /// The operators, and then for each op-assignment its own and the one that it applies.
    fn all_operators(&self) -> &[raw::Value] {
        contents!(self.contents(), operators, operators_len)
    }

    fn operator_of(&self, row: &raw::Value) -> Operator<'_> {
        let contents = self.contents();
        Operator::of(row, contents!(contents, operator_texts, operator_texts_len))
    }

    /// The operators.
    pub fn operators(&self) -> impl ExactSizeIterator<Item = Operator<'_>> + '_ {
        let (own, _) = self.operator_rows();
        own.iter().map(|row| self.operator_of(row))
    }

    /// The operator with an index.
    #[must_use]
    pub fn operator(&self, index: u32) -> Option<Operator<'_>> {
        let (own, _) = self.operator_rows();
        Some(self.operator_of(own.get(index as usize)?))
    }

    /// The operators, and those of the op-assignments.
    fn operator_rows(&self) -> (&[raw::Value], &[raw::Value]) {
        let all = self.all_operators();
        all.split_at(all.len().min(self.contents().program.pools.operators))
    }

    /// The op-assignments.
    pub fn op_assignments(&self) -> impl ExactSizeIterator<Item = OpAssignment<'_>> + '_ {
        let (_, operators) = self.operator_rows();
        let pairs = operators.chunks_exact(2);
        let names: &[raw::OpAssignment] =
            contents!(self.contents(), op_assignments, op_assignments_len);
        let all = names.iter().zip(pairs);
        all.map(|(names, pair)| self.op_assignment_of(names, pair))
    }

    /// The op-assignment with an index.
    #[must_use]
    pub fn op_assignment(&self, index: u32) -> Option<OpAssignment<'_>> {
        let (_, operators) = self.operator_rows();
        let names: &[raw::OpAssignment] =
            contents!(self.contents(), op_assignments, op_assignments_len);
        let index = index as usize;
        let pair = operators.get(index.checked_mul(2)?..)?.get(..2)?;
        Some(self.op_assignment_of(names.get(index)?, pair))
    }

    fn op_assignment_of(&self, names: &raw::OpAssignment, pair: &[raw::Value]) -> OpAssignment<'_> {
        OpAssignment {
            op_assign: self.operator_of(&pair[0]),
            op_assign_name: names.op_assign_name,
            op: self.operator_of(&pair[1]),
            op_name: names.op_name,
        }
    }

    /// The chains.
    pub fn chains(&self) -> impl Iterator<Item = FileChain<'_>> + '_ {
        let chains = self.contents().program.pools.chains_len;
        indices(chains).filter_map(|index| self.chain(index))
    }

    /// The chain with an index.
    #[must_use]
    pub fn chain(&self, index: u32) -> Option<FileChain<'_>> {
        let contents = self.contents();
        let pools = &contents.program.pools;
        let rows: &[ChainRow] = contents!(pools, chains, chains_len);
        let begins: &[u32] = contents!(contents, chain_steps, chain_steps_len);
        let steps: &[StepRow] = contents!(pools, steps, steps_len);
        let flags: &[u8] = contents!(contents, step_flags, step_flags_len);
        let index = index as usize;
        let (row, begin) = (rows.get(index)?, *begins.get(index)?);
        Some(FileChain {
            row,
            steps: FileSteps::new(
                part(steps, begin, row.steps())?,
                part(flags, begin, row.steps())?,
            ),
        })
    }

    /// The switches.
    pub fn switches(&self) -> impl Iterator<Item = FileSwitch<'_>> + '_ {
        let switches = self.contents().program.pools.switches_len;
        indices(switches).filter_map(|index| self.switch(index))
    }

    /// The switch with an index.
    #[must_use]
    pub fn switch(&self, index: u32) -> Option<FileSwitch<'_>> {
        let contents = self.contents();
        let pools = &contents.program.pools;
        let rows: &[SwitchRow] = contents!(pools, switches, switches_len);
        let case_begins: &[u32] = contents!(contents, switch_cases, switch_cases_len);
        let range_begins: &[u32] = contents!(contents, switch_ranges, switch_ranges_len);
        let cases: &[Case] = contents!(pools, cases, cases_len);
        let ranges: &[Range] = contents!(contents, ranges, ranges_len);
        let index = index as usize;
        let row = rows.get(index)?;
        Some(FileSwitch {
            cases: part(cases, *case_begins.get(index)?, row.cases)?,
            ranges: part(ranges, *range_begins.get(index)?, row.ranges)?,
            otherwise: row.otherwise,
        })
    }

    /// The address table of the positions in the code, if the file has these.
    #[must_use]
    pub fn table(&self) -> Option<&[u8]> {
        let table = contents!(self.contents(), table, table_len);
        self.contents().has_positions.then_some(table)
    }

    /// The stream of the positions in the chains.
    #[must_use]
    pub fn stream(&self) -> &[u8] {
        contents!(self.contents(), stream, stream_len)
    }

    /// The place of the instruction at an address. It takes time by the table.
    #[must_use]
    pub fn site(&self, address: u32) -> Option<Site> {
        site(self.table()?, address)
    }

    /// The place of a position among those of all chains. It takes time by the stream.
    #[must_use]
    pub fn chain_site(&self, slot: u32) -> Option<Site> {
        stream_site(self.stream(), slot)
    }

    /// The line and the column that are recorded for the address of a refusal.
    #[must_use]
    pub fn site_of(&self, refusal: &Refusal) -> Option<Site> {
        self.site(refusal.address()?)
    }

    /// Verifies the program for a host with these capabilities, and returns the depth of each chunk.
    ///
    /// The host needs the capabilities that the program declares, and the program is verified under these. If the program is to
    /// be run, [`ProgramFile::into_verified`] keeps the file and the depths together.
    ///
    /// # Errors
    /// Those of [`verify`](crate::verify).
    pub fn verify(&self, caps: Caps) -> Result<Vec<u16>, VerifyError> {
        let mut depths = zeroed(self.chunks().len())?;
        self.judge(None, raw::NO_LIMIT, caps, &mut Room::of_depths(&mut depths))?;
        Ok(depths)
    }

    /// Verifies the program as [`ProgramFile::verify`] does, and turns the file into one that may be run.
    /// [`Verifier::verify_program_file`](crate::Verifier::verify_program_file) does the same within a limit on work.
    ///
    /// ```
    /// use grain::{Caps, Instruction, ProgramFile, Value};
    ///
    /// // `LoadConst(0)`, `Return`, and the constant 42.
    /// let bytes = b"\0grn\x02\0\0\0\0\x04\x01\0\0\x13\0\x04\x01\0\0\x01\x03\x54\0\0\0\0\0\0";
    /// let verified = ProgramFile::try_from(&bytes[..])?.into_verified(Caps::NONE)?;
    /// let (first, next) = Instruction::decode(verified.code(), 0).unwrap();
    /// assert_eq!((first, next), (Instruction::LoadConst { constant: 0 }, 3));
    /// assert_eq!(verified.constant(0), Some(Value::Integer(42)));
    /// # Ok::<(), Box<dyn std::error::Error>>(())
    /// ```
    ///
    /// # Errors
    /// The file, and the error of [`ProgramFile::verify`].
    pub fn into_verified(self, caps: Caps) -> Result<Verified<ProgramFile>, Rejected<ProgramFile>> {
        let found = Found::by(self.chunks().len(), |room| {
            self.judge(None, raw::NO_LIMIT, caps, room)
        });
        Verified::new(self, caps, found)
    }

    /// Explains a chunk of the program, by its index, or what a [`Refusal`] refuses, as [`explain`] does, for a host with these
    /// capabilities. As [`ProgramFile::verify`] does, it tests whether the host has those that the program declares, and the
    /// program under these.
    ///
    /// # Errors
    /// Those of [`explain`].
    pub fn explain(
        &self,
        caps: Caps,
        subject: impl Into<Subject>,
    ) -> Result<Explained<'_>, ExplainError> {
        let mut explained = explain(self.caps(), self.code(), self.chunks(), self, subject)?;
        if let Some(refusal) = Refusal::of_declared_caps(self.contents().caps, caps) {
            explained.refuse_outside(refusal);
        }
        Ok(explained)
    }

    /// Verifies the program in a scratch, or in memory for this call alone, and returns how many instructions were visited.
    pub(crate) fn judge(
        &self,
        scratch: Option<&mut raw::Scratch>,
        limit: u64,
        caps: Caps,
        room: &mut Room<'_>,
    ) -> Result<u64, VerifyError> {
        let mut report = raw::Report::default();
        let scratch = scratch.map_or(ptr::null_mut(), |scratch| scratch as *mut _);
        // SAFETY: the file lives for the call, and what is written is borrowed for it alone. The scratch, if any, was made by the
        // library or keeps nothing.
        let status = unsafe {
            raw::grain_file_verify(
                scratch,
                self.file.as_ptr(),
                caps.bits(),
                limit,
                room.depths.as_mut_ptr(),
                room.depths.len(),
                room.slots(),
                &mut report,
            )
        };
        verdict(status, &report, &self.pools())
    }
}

/// The name that has these bytes. The library has tested that it is UTF-8.
fn name_between(names: &[u8], from: u32, to: u32) -> &str {
    let name = names.get(from as usize..to as usize);
    str::from_utf8(name.unwrap_or_default()).unwrap_or_default()
}

/// As many items of a list, from one on.
fn part<T>(items: &[T], begin: u32, count: u32) -> Option<&[T]> {
    items.get(begin as usize..)?.get(..count as usize)
}

/// The indices of a list with this many items. No list of a file has more than 32 bits can say.
fn indices(count: usize) -> std::ops::Range<u32> {
    0..u32::try_from(count).unwrap_or(u32::MAX)
}
