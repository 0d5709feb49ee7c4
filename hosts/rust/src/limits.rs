//! What a host bounds of the files that it reads.
use crate::raw;

/// What a host bounds of the files that it reads.
///
/// ```
/// let limits = grain::Limits::new().size(1 << 20).depth(16);
/// assert_eq!((limits.size, limits.depth, limits.cases), (1 << 20, 16, 4096));
/// ```
#[derive(Clone, Copy, Debug, PartialEq, Eq, Hash)]
#[non_exhaustive]
pub struct Limits {
    /// How many bytes a file has at most.
    pub size: usize,
    /// How deep values are nested at most, no more than [`Limits::MAX_DEPTH`]; one that holds no other counts 1. Reading takes
    /// about 1,200 bytes of the call stack for each level: up to 80 KiB for the usual 64, up to 320 KiB for the greatest.
    pub depth: u32,
    /// How many cases a switch has at most. An attacker can choose equal hashes, and then time grows by the square of it.
    pub cases: usize,
}

impl Limits {
    /// The greatest depth that a limit may have. With a greater one nothing is read:
    /// [`FileError::BadLimit`](crate::FileError::BadLimit).
    pub const MAX_DEPTH: u32 = raw::DEPTH_MAX;

    /// The usual limits: files of 64 MiB, values nested 64 deep, and switches of 4096 cases.
    #[must_use]
    pub const fn new() -> Limits {
        Limits {
            size: 64 * 1024 * 1024,
            depth: 64,
            cases: 4096,
        }
    }

    /// With this many bytes of a file at most.
    #[must_use]
    pub const fn size(mut self, bytes: usize) -> Limits {
        self.size = bytes;
        self
    }

    /// With values nested this deep at most.
    #[must_use]
    pub const fn depth(mut self, levels: u32) -> Limits {
        self.depth = levels;
        self
    }

    /// With this many cases of a switch at most.
    #[must_use]
    pub const fn cases(mut self, cases: usize) -> Limits {
        self.cases = cases;
        self
    }

    pub(crate) fn record(&self) -> raw::Limits {
        raw::Limits {
            size: self.size,
            cases: self.cases,
            depth: self.depth,
        }
    }
}

/// The usual limits, as [`Limits::new`] has them.
impl Default for Limits {
    fn default() -> Limits {
        Limits::new()
    }
}
