//! A program as one value: code, chunks, pools and positions.
use crate::capabilities::Caps;
use crate::code::{instructions, Instructions};
use crate::error::{ExplainError, VerifyError};
use crate::explained::{explain, Explained, Subject};
use crate::pools::Pools;
use crate::refusal::Refusal;
use crate::rows::{Root, Step};
use crate::tables::{check_table, site, stream_site, stream_sites, stream_sites_into};
use crate::tables::{table_entries, Entry, ReadError, Site, TableFlaw};
use crate::verified::{Rejected, Verified};
use crate::verifier::{judge, Found};
use crate::{tighten, verify, Chunk};
use std::error::Error;
use std::fmt;

/// The positions of a program: of its code and of its chains.
#[derive(Clone, Debug, Default, PartialEq, Eq, Hash)]
pub struct Positions {
    /// The address table of the positions in the code.
    pub table: Vec<u8>,
    /// The stream of the positions in the chains, chain by chain: that of the root, if it is [`Root::Named`] or
    /// [`Root::This`], and then those of the steps. An index has two, its own and that of its bracket.
    pub stream: Vec<u8>,
}

/// Why positions aren't those of a program.
#[derive(Clone, Copy, Debug, PartialEq, Eq, Hash)]
#[non_exhaustive]
pub enum AttachError {
    /// The bytes of the address table are none.
    Table(TableFlaw),
    /// An entry of the table has an address where no instruction of the code begins.
    NoInstruction {
        /// The address.
        at: u32,
    },
    /// An entry of the table has line 0.
    NoLine {
        /// Its address.
        at: u32,
    },
    /// The bytes of the stream are none.
    Stream(TableFlaw),
    /// The stream has another number of slots than the chains have positions.
    ChainCount {
        /// How many slots the stream has.
        slots: usize,
        /// How many positions the chains have.
        positions: usize,
    },
    /// The allocator refused.
    OutOfMemory,
}

impl fmt::Display for AttachError {
    fn fmt(&self, f: &mut fmt::Formatter<'_>) -> fmt::Result {
        match self {
            AttachError::Table(flaw) => write!(f, "the bytes are not an address table: {flaw}"),
            AttachError::NoInstruction { at } => {
                write!(
                    f,
                    "the address table has an entry for {at}, where no instruction begins"
                )
            }
            AttachError::NoLine { at } => write!(f, "the address table has line 0 for {at}"),
            AttachError::Stream(flaw) => write!(f, "the bytes are not a stream: {flaw}"),
            AttachError::ChainCount { slots, positions } => write!(
                f,
                "the stream has {slots} slots, and the chains have {positions} positions"
            ),
            AttachError::OutOfMemory => f.write_str("out of memory"),
        }
    }
}

impl Error for AttachError {}

/// A program: its code, its chunks, its pools, and perhaps its positions.
///
/// [`Program::into_verified`] turns it into one that may be run. If that says no, [`Program::explain`] shows why.
///
/// ```
/// use grain::{Caps, Chunk, Pools, Positions, Program, Site};
///
/// let chunks = vec![Chunk::new(0, 6, 8)];
/// let mut program = Program::new(vec![0x02, 0x02, 0x0b, 0x0b, 0x0b, 0x13], chunks, Pools::new());
/// program.attach_positions(Positions { table: vec![2, 0, 1, 5, 4, 2, 1], stream: vec![0] })?;
///
/// let rejected = program.into_verified(Caps::ALL).unwrap_err();
/// let (program, refusal) = (rejected.program(), rejected.refusal().unwrap());
/// assert_eq!(program.site_of(refusal), Some(Site { line: 2, column: 1 }));
/// let explained = program.explain(Caps::ALL, refusal)?;
/// assert_eq!(explained.path().len(), 5);
/// assert!(explained.to_string().starts_with("refused: chunk 0: the instruction at 4 needs 1 operand"));
/// # Ok::<(), Box<dyn std::error::Error>>(())
/// ```
#[derive(Clone, Debug, Default, PartialEq, Eq, Hash)]
pub struct Program {
    code: Vec<u8>,
    chunks: Vec<Chunk>,
    pools: Pools,
    positions: Option<Positions>,
}

impl Program {
    /// A program without positions.
    #[must_use]
    pub fn new(code: Vec<u8>, chunks: Vec<Chunk>, pools: Pools) -> Program {
        Program {
            code,
            chunks,
            pools,
            positions: None,
        }
    }

    /// Its code.
    #[must_use]
    pub fn code(&self) -> &[u8] {
        &self.code
    }

    /// Its chunks.
    #[must_use]
    pub fn chunks(&self) -> &[Chunk] {
        &self.chunks
    }

    /// Its pools.
    #[must_use]
    pub fn pools(&self) -> &Pools {
        &self.pools
    }

    /// Its positions, if it has them.
    #[must_use]
    pub fn positions(&self) -> Option<&Positions> {
        self.positions.as_ref()
    }

    /// Verifies the program, and returns the depth of each chunk, as [`verify`] does.
    ///
    /// # Errors
    /// Those of [`verify`].
    pub fn verify(&self, caps: Caps) -> Result<Vec<u16>, VerifyError> {
        verify(caps, &self.code, &self.chunks, &self.pools)
    }

    /// Verifies the program, and turns it into one that may be run.
    /// [`Verifier::verify_program`](crate::Verifier::verify_program) does the same within a limit.
    ///
    /// # Errors
    /// The program, and the error of [`Program::verify`].
    // The error has the program in it; a box would take memory, which may be what is lacking.
    #[allow(clippy::result_large_err)]
    pub fn into_verified(self, caps: Caps) -> Result<Verified, Rejected> {
        let found = Found::by(self.chunks.len(), |room| {
            judge(caps, &self.code, &self.chunks, &self.pools.flat(), room)
        });
        Verified::new(self, caps, found)
    }

    /// Explains a chunk of the program, by its index, or what a [`Refusal`] refuses, as [`explain`] does.
    ///
    /// # Errors
    /// Those of [`explain`].
    pub fn explain(
        &self,
        caps: Caps,
        subject: impl Into<Subject>,
    ) -> Result<Explained<'_>, ExplainError> {
        explain(caps, &self.code, &self.chunks, &self.pools, subject)
    }

    /// Has each chunk declare its depth, as [`tighten`] does.
    ///
    /// # Errors
    /// Those of [`verify`]; then the chunks stay as they were.
    pub fn tighten(&mut self, caps: Caps) -> Result<u64, VerifyError> {
        tighten(caps, &self.code, &mut self.chunks, &self.pools)
    }

    /// The line and the column that are recorded for the address of a refusal.
    #[must_use]
    pub fn site_of(&self, refusal: &Refusal) -> Option<Site> {
        self.site(refusal.address()?)
    }

    /// The line and the column that are recorded for an address of the code.
    #[must_use]
    pub fn site(&self, address: u32) -> Option<Site> {
        site(&self.positions.as_ref()?.table, address)
    }

    /// The line and the column that are recorded for a slot of the chains' positions.
    #[must_use]
    pub fn chain_site(&self, slot: u32) -> Option<Site> {
        stream_site(&self.positions.as_ref()?.stream, slot)
    }

    /// The entries of its address table in order; none if it has no positions.
    ///
    /// # Errors
    /// The allocator refused.
    pub fn entries(&self) -> Result<Vec<Entry>, ReadError> {
        let positions = self.positions.as_ref();
        Ok(positions.map_or(Ok(Vec::new()), |own| table_entries(&own.table))?)
    }

    /// The sites of its chains, slot by slot; none if it has no positions.
    ///
    /// # Errors
    /// The allocator refused.
    pub fn chain_sites(&self) -> Result<Vec<Option<Site>>, ReadError> {
        let positions = self.positions.as_ref();
        positions.map_or(Ok(Vec::new()), |own| stream_sites(&own.stream))
    }

    /// Gives the program these positions in place of its own. They are tested: the table must be an address table, and the stream
    /// a chain stream. Each entry must have a line, and the address of an instruction, or the first address at which there is none.
    /// There must be a slot for each position of the chains.
    ///
    /// # Errors
    /// The first test that fails; then the program stays as it was.
    pub fn attach_positions(&mut self, positions: Positions) -> Result<(), AttachError> {
        check_table(&positions.table).map_err(AttachError::Table)?;
        self.check_entries(&positions.table)?;
        let slots = stream_sites_into(&positions.stream, &mut []).map_err(AttachError::Stream)?;
        let positions_of_chains = self.count_positions();
        if slots != positions_of_chains {
            return Err(AttachError::ChainCount {
                slots,
                positions: positions_of_chains,
            });
        }
        self.positions = Some(positions);
        Ok(())
    }

    /// Removes the positions of the program, and returns them.
    pub fn strip_positions(&mut self) -> Option<Positions> {
        self.positions.take()
    }

    /// Takes it apart into its code, its chunks, its pools and its positions.
    #[must_use]
    pub fn into_parts(self) -> (Vec<u8>, Vec<Chunk>, Pools, Option<Positions>) {
        (self.code, self.chunks, self.pools, self.positions)
    }

    fn check_entries(&self, table: &[u8]) -> Result<(), AttachError> {
        let entries = table_entries(table).map_err(|_| AttachError::OutOfMemory)?;
        let mut left = instructions(&self.code);
        for Entry { address: at, site } in entries {
            if site.known().is_none() {
                return Err(AttachError::NoLine { at });
            }
            let next = left.by_ref().find(|(start, _)| *start >= at);
            let arrived = next.map_or_else(|| damage(&left), |(start, _)| Some(start));
            if arrived != Some(at) {
                return Err(AttachError::NoInstruction { at });
            }
        }
        Ok(())
    }

    /// How many positions the chains have.
    fn count_positions(&self) -> usize {
        let of_root = |root: Root| match root {
            Root::Named { .. } | Root::This => 1,
            Root::Local { .. } | Root::Temporary => 0,
        };
        let of_step = |step: Step| match step {
            Step::Index { .. } => 2,
            Step::Property { .. } | Step::Method { .. } => 1,
        };
        let chains = self.pools.flat();
        chains
            .all_chains()
            .map(|(chain, steps)| {
                let steps = steps.iter().map(|step| of_step(Step::from(*step)));
                of_root(chain.root()) + steps.sum::<usize>()
            })
            .sum()
    }
}

/// Where the instructions end, if that is before the code does.
fn damage(left: &Instructions<'_>) -> Option<u32> {
    (!left.is_whole()).then(|| left.address())
}
