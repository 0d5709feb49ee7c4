//! Why a program is accepted or refused.
use crate::capabilities::Caps;
use crate::error::{ExplainError, VerifyError};
use crate::flat::FlatPools;
use crate::refusal::Refusal;
use crate::verifier::zeroed;
use crate::{raw, verifier, Chunk};
use std::iter::FusedIterator;

/// What is explained: a chunk, by its index, or what a [`Refusal`] refuses.
#[derive(Clone, Copy, Debug, PartialEq, Eq, Hash)]
#[non_exhaustive]
pub enum Subject {
    /// The chunk with this index.
    Chunk(usize),
    /// What is refused: a chunk, or a constant, the code or the functions.
    Refusal(Refusal),
}

impl Subject {
    fn chunk(self) -> Option<usize> {
        match self {
            Subject::Chunk(chunk) => Some(chunk),
            Subject::Refusal(refusal) => refusal.chunk(),
        }
    }
}

impl From<usize> for Subject {
    fn from(chunk: usize) -> Subject {
        Subject::Chunk(chunk)
    }
}

impl From<Refusal> for Subject {
    fn from(refusal: Refusal) -> Subject {
        Subject::Refusal(refusal)
    }
}

impl From<&Refusal> for Subject {
    fn from(refusal: &Refusal) -> Subject {
        Subject::Refusal(*refusal)
    }
}

/// The base of an armed handler: what was on the stacks when it was armed.
#[derive(Clone, Copy, Debug, PartialEq, Eq, Hash)]
pub struct Base {
    /// How many operands there were.
    pub operands: u32,
    /// How many iterators there were.
    pub iterators: u32,
}

/// The state at an instruction when a run reaches it. Its bases are those of [`Explained::bases`].
#[repr(C)]
#[derive(Clone, Copy, Debug, Default, PartialEq, Eq, Hash)]
pub struct Row {
    at: u32,
    operands: u32,
    iterators: u32,
    from: u32,
    base: u32,
}

impl Row {
    /// The address of the instruction.
    #[must_use]
    pub fn address(&self) -> u32 {
        self.at
    }

    /// How many operands there are.
    #[must_use]
    pub fn operands(&self) -> u32 {
        self.operands
    }

    /// How many iterators there are.
    #[must_use]
    pub fn iterators(&self) -> u32 {
        self.iterators
    }

    /// An address from which the instruction is reached; `None` at the entry of the chunk, and on a path.
    #[must_use]
    pub fn reached_from(&self) -> Option<u32> {
        (self.from != raw::NO_ADDRESS).then_some(self.from)
    }
}

/// The state at each reached instruction of a chunk, and why the program is refused, if it is.
///
/// It prints as a listing, line by line, with the names that instructions name. What is untrusted in it is escaped: a listing
/// has no control characters except line feeds, and none that change the direction of text.
#[derive(Clone, Debug)]
pub struct Explained<'a> {
    pub(crate) code: &'a [u8],
    pub(crate) pools: FlatPools<'a>,
    pub(crate) chunk: Option<(usize, Chunk)>,
    outside: Option<Refusal>,
    inside: Option<Refusal>,
    rows: Vec<Row>,
    /// How many of the rows are of the chunk, and how many of these and of the path.
    ends: (usize, usize),
    bases: Vec<raw::Base>,
    /// How many bases the list has that begins with each.
    lengths: Vec<u32>,
}

impl<'a> Explained<'a> {
    /// Why the program is refused, as far as is explained: for what is outside the chunks, else for the explained chunk. `None`
    /// says that neither is refused.
    #[must_use]
    pub fn refusal(&self) -> Option<&Refusal> {
        self.outside.as_ref().or(self.inside.as_ref())
    }

    /// Why the program is refused for what is outside the chunks: a constant, the code or the functions.
    #[must_use]
    pub fn refusal_outside(&self) -> Option<&Refusal> {
        self.outside.as_ref()
    }

    /// Why the explained chunk is refused.
    #[must_use]
    pub fn refusal_of_chunk(&self) -> Option<&Refusal> {
        self.inside.as_ref()
    }

    /// The index of the explained chunk; `None` if a refusal outside the chunks was to be explained.
    #[must_use]
    pub fn chunk(&self) -> Option<usize> {
        self.chunk.map(|(index, _)| index)
    }

    /// The states at the reached instructions of the chunk, in the order of addresses, one for each at most: all of them if
    /// the chunk passes; if it is refused, those of the path, and others that the walk visited until it met the flaw.
    #[must_use]
    pub fn rows(&self) -> &[Row] {
        &self.rows[..self.ends.0]
    }

    /// A path to the flaw, from the entry of the chunk on; its last row shows the flaw. It is empty if there is no flaw, and
    /// if the chunk is empty, isn't in the code, or begins or ends inside an instruction.
    #[must_use]
    pub fn path(&self) -> &[Row] {
        &self.rows[self.ends.0..self.ends.1]
    }

    /// For a conflict, another path to the same address, with other counts; otherwise empty.
    #[must_use]
    pub fn other_path(&self) -> &[Row] {
        &self.rows[self.ends.1..]
    }

    /// The bases of the handlers that are armed at a row of this explanation, from the innermost outwards.
    pub fn bases(&self, row: &Row) -> Bases<'_> {
        let length = self.lengths.get(row.base as usize);
        Bases {
            list: &self.bases,
            next: row.base,
            left: length.map_or(0, |length| *length as usize),
        }
    }
}

/// The bases of armed handlers, from the innermost outwards, as [`Explained::bases`] returns them.
#[derive(Clone, Debug)]
pub struct Bases<'a> {
    list: &'a [raw::Base],
    next: u32,
    left: usize,
}

impl Iterator for Bases<'_> {
    type Item = Base;

    fn next(&mut self) -> Option<Base> {
        self.left = self.left.checked_sub(1)?;
        let base = self.list.get(self.next as usize)?;
        self.next = base.next;
        Some(Base {
            operands: base.operands,
            iterators: base.iterators,
        })
    }

    fn size_hint(&self) -> (usize, Option<usize>) {
        (self.left, Some(self.left))
    }
}

impl ExactSizeIterator for Bases<'_> {}
impl FusedIterator for Bases<'_> {}

/// Explains a chunk of a program, by its index, or what a [`Refusal`] refuses: the state at each reached instruction, and a path
/// to the flaw; for a conflict, two. What is outside the chunks is tested too, and a refusal for it is shown first.
///
/// Memory grows with the chunk, and time with the chunk and the code. The process never ends if the allocator refuses.
///
/// ```
/// use grain::{explain, verify, Caps, Chunk, Flaw, Pools};
///
/// // A loop that leaves an operand each round.
/// let code = [0x02, 0x1d, 0x1e, 12, 0, 0, 0, 0x0c, 2, 0, 0, 0, 0x02, 0x13];
/// let (chunks, pools) = ([Chunk::new(0, 14, 8)], Pools::new());
/// let error = verify(Caps::ALL, &code, &chunks, &pools).unwrap_err();
///
/// let explained = explain(Caps::ALL, &code, &chunks, &pools, error.refusal().unwrap())?;
/// let refusal = explained.refusal().unwrap();
/// assert_eq!((refusal.chunk(), refusal.address()), (Some(0), Some(2)));
/// let paths = [explained.path(), explained.other_path()];
/// let paths = paths.map(|path| path.iter().map(|row| (row.address(), row.operands())).collect::<Vec<_>>());
/// assert!(paths.contains(&vec![(0, 0), (1, 1), (2, 0)]));
/// assert!(paths.contains(&vec![(0, 0), (1, 1), (2, 0), (7, 1), (2, 1)]));
/// println!("{explained}");
/// # Ok::<(), grain::ExplainError>(())
/// ```
///
/// # Errors
/// [`ExplainError::NoChunk`] if the program has no such chunk; [`ExplainError::BadCode`] if a chunk is to be explained of
/// code that isn't whole instructions with their indices in bounds; the allocator refused; the pools aren't flat.
pub fn explain<'a>(
    caps: Caps,
    code: &'a [u8],
    chunks: &[Chunk],
    pools: impl Into<FlatPools<'a>>,
    subject: impl Into<Subject>,
) -> Result<Explained<'a>, ExplainError> {
    explain_within(
        raw::NO_LIMIT,
        caps,
        code,
        chunks,
        pools.into(),
        subject.into(),
    )
}

/// The same within a limit on the bytes that the chunk spans.
pub(crate) fn explain_within<'a>(
    limit: u64,
    caps: Caps,
    code: &'a [u8],
    chunks: &[Chunk],
    pools: FlatPools<'a>,
    subject: Subject,
) -> Result<Explained<'a>, ExplainError> {
    let mut explained = Explained {
        code,
        pools,
        chunk: None,
        outside: refusal_outside(caps, code, &pools)?,
        inside: None,
        rows: Vec::new(),
        ends: (0, 0),
        bases: Vec::new(),
        lengths: Vec::new(),
    };
    let Some(index) = subject.chunk() else {
        return Ok(explained);
    };
    let chunk = *chunks.get(index).ok_or(ExplainError::NoChunk(index))?;
    let span = span(code, &chunk);
    if span as u64 > limit {
        return Err(ExplainError::TooMuchWork);
    }
    explained.chunk = Some((index, chunk));
    explained.fill(caps, &pools.program(code, chunks), index, span)?;
    Ok(explained)
}

/// How many bytes of the code a chunk spans.
fn span(code: &[u8], chunk: &Chunk) -> usize {
    let end = (chunk.end as usize).min(code.len());
    end.saturating_sub(chunk.entry as usize)
}

/// Why a program is refused whatever its chunks are, if it is.
fn refusal_outside(
    caps: Caps,
    code: &[u8],
    pools: &FlatPools<'_>,
) -> Result<Option<Refusal>, ExplainError> {
    let mut none = verifier::Room::of_depths(&mut []);
    match verifier::judge_in(None, raw::NO_LIMIT, caps, code, &[], pools, &mut none) {
        Ok(_) => Ok(None),
        Err(VerifyError::Refused(refusal)) => Ok(Some(refusal)),
        Err(failure) => Err(failure.into()),
    }
}

impl Explained<'_> {
    /// Has the library explain a chunk. The first try has room for a row and a base at each byte of it. The second has as much
    /// as the library says.
    fn fill(
        &mut self,
        caps: Caps,
        program: &raw::Program,
        index: usize,
        span: usize,
    ) -> Result<(), ExplainError> {
        let (mut rows, mut bases) = (span, span);
        for _ in 0..2 {
            let (status, found) = self.explain_into(caps, program, index, rows, bases)?;
            if !matches!(status, raw::ACCEPTED | raw::REFUSED) {
                return Err(self.failure(status, index));
            }
            let path_end = found.rows.saturating_add(found.path);
            let end = path_end.saturating_add(found.other);
            if end <= rows && found.bases <= bases {
                self.rows.truncate(end);
                self.bases.truncate(found.bases);
                self.ends = (found.rows, path_end);
                self.lengths = lengths(&self.bases)?;
                self.inside = (status == raw::REFUSED)
                    .then(|| Refusal::new(found.refusal, found.rows as u64).of_chunk(index));
                return Ok(());
            }
            (rows, bases) = (end, found.bases);
        }
        Err(ExplainError::Unknown(raw::SHORT))
    }

    fn explain_into(
        &mut self,
        caps: Caps,
        program: &raw::Program,
        index: usize,
        rows: usize,
        bases: usize,
    ) -> Result<(u32, raw::Explanation), ExplainError> {
        // What a first try took is freed before the second takes memory.
        (self.rows, self.bases) = (Vec::new(), Vec::new());
        (self.rows, self.bases) = (zeroed(rows)?, zeroed(bases)?);
        let mut found = raw::Explanation::default();
        // SAFETY: the record points to lists that the caller borrows; the lists that are written to are this call's alone.
        let status = unsafe {
            raw::grain_explain(
                caps.bits(),
                program,
                index,
                self.rows.as_mut_ptr(),
                self.rows.len(),
                self.bases.as_mut_ptr(),
                self.bases.len(),
                &mut found,
            )
        };
        Ok((status, found))
    }

    /// Has the program refused for something outside the chunks.
    pub(crate) fn refuse_outside(&mut self, refusal: Refusal) {
        self.outside = Some(refusal);
    }

    fn failure(&self, status: u32, index: usize) -> ExplainError {
        match status {
            raw::OUT_OF_MEMORY => ExplainError::OutOfMemory,
            raw::NOT_FLAT => verifier::not_flat(&self.pools).into(),
            raw::NO_CHUNK => ExplainError::NoChunk(index),
            // With all capabilities nothing is refused before the code.
            raw::BAD_CODE => match refusal_outside(Caps::ALL, self.code, &self.pools) {
                Ok(Some(refusal)) => ExplainError::BadCode(refusal),
                Ok(None) => ExplainError::Unknown(status),
                Err(failure) => failure,
            },
            status => ExplainError::Unknown(status),
        }
    }
}

/// How many bases the list has that begins with each: each base is gone through twice.
fn lengths(bases: &[raw::Base]) -> Result<Vec<u32>, ExplainError> {
    let mut lengths: Vec<u32> = zeroed(bases.len())?;
    for first in 0..bases.len() {
        let (mut new, mut next) = (0u32, first);
        while next < bases.len() && lengths[next] == 0 && (new as usize) < bases.len() {
            new += 1;
            next = bases[next].next as usize;
        }
        let known = lengths.get(next).copied().unwrap_or(0);
        next = first;
        for place in (1..=new).rev() {
            lengths[next] = known + place;
            next = bases[next].next as usize;
        }
    }
    Ok(lengths)
}

#[cfg(test)]
mod tests {
    use super::*;

    #[test]
    fn lists_of_bases_are_measured_once() {
        let base = |next| raw::Base {
            operands: 0,
            iterators: 0,
            next,
        };
        let none = raw::NO_BASE;
        let bases = [base(none), base(0), base(1), base(0), base(5), base(2)];
        assert_eq!(lengths(&bases), Ok(vec![1, 2, 3, 2, 5, 4]));
        assert_eq!(lengths(&[]), Ok(vec![]));
    }
}
