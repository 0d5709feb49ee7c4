//! Program files that are written again.
use crate::error::VerifyError;
use crate::file::ProgramFile;
use crate::file_error::FileError;
use crate::limits::Limits;
use crate::raw;
use crate::refusal::Refusal;
use crate::verifier::{copied, zeroed};
use std::error::Error;
use std::fmt;

/// Why a file isn't tightened: it isn't read, or its program isn't accepted.
#[derive(Clone, Copy, Debug, PartialEq, Eq, Hash)]
#[non_exhaustive]
pub enum TightenError {
    /// The bytes aren't a file within the limits, or the allocator refused.
    File(FileError),
    /// The program isn't accepted.
    Verify(VerifyError),
}

/// It prints as the error that it has.
impl fmt::Display for TightenError {
    fn fmt(&self, f: &mut fmt::Formatter<'_>) -> fmt::Result {
        match self {
            TightenError::File(error) => error.fmt(f),
            TightenError::Verify(error) => error.fmt(f),
        }
    }
}

impl Error for TightenError {}

impl From<FileError> for TightenError {
    fn from(error: FileError) -> TightenError {
        TightenError::File(error)
    }
}

impl From<VerifyError> for TightenError {
    fn from(error: VerifyError) -> TightenError {
        TightenError::Verify(error)
    }
}

/// The file of a program without positions, and the sidecar file with these.
#[derive(Clone, Debug, PartialEq, Eq, Hash)]
pub struct Stripped {
    /// The file of the program, without positions.
    pub program: Vec<u8>,
    /// The sidecar file (FORMAT.md, "Sidecar files"), which `grain attach` gives back to the program.
    pub sidecar: Vec<u8>,
}

/// Room for this many bytes.
fn room_for(size: usize) -> Result<Vec<u8>, FileError> {
    zeroed(size).map_err(|_| FileError::OutOfMemory)
}

/// The first bytes of room, which are those that were written, in memory that isn't larger. They are copied: if the allocator
/// refuses to shrink a list, the process ends.
fn written(room: &[u8], size: usize) -> Result<Vec<u8>, FileError> {
    copied(&room[..size.min(room.len())]).map_err(|_| FileError::OutOfMemory)
}

pub(crate) fn tighten(bytes: &[u8], limits: &Limits, limit: u64) -> Result<Vec<u8>, TightenError> {
    let (mut error, mut report) = (raw::ReadError::default(), raw::Report::default());
    // No more is written than was read; of more bytes than the limit none is.
    let mut room = room_for(bytes.len().min(limits.size))?;
    let mut tightened = raw::Room::of(&mut room);
    // SAFETY: the bytes, the room and the records live for the call, and nothing else reads what is written.
    let status = unsafe {
        raw::grain_file_tighten(
            bytes.as_ptr(),
            bytes.len(),
            &limits.record(),
            limit,
            &mut tightened,
            &mut error,
            &mut report,
        )
    };
    let size = tightened.size;
    match status {
        raw::ACCEPTED => Ok(written(&room, size)?),
        raw::REFUSED => Err(VerifyError::from(Refusal::new(report.refusal, report.visited)).into()),
        raw::TOO_MUCH_WORK => Err(VerifyError::TooMuchWork.into()),
        status => Err(FileError::of(status, error).into()),
    }
}

/// Strips a file into room for a sidecar of this size, or says how large it is.
fn strip(
    bytes: &[u8],
    limits: &Limits,
    sidecar_room: usize,
) -> Result<Result<Stripped, usize>, FileError> {
    let mut error = raw::ReadError::default();
    let mut program = room_for(bytes.len().min(limits.size))?;
    let mut sidecar = room_for(sidecar_room)?;
    let mut rooms = (raw::Room::of(&mut program), raw::Room::of(&mut sidecar));
    // SAFETY: the bytes, the rooms and the records live for the call, and nothing else reads what is written.
    let status = unsafe {
        raw::grain_file_strip(
            bytes.as_ptr(),
            bytes.len(),
            &limits.record(),
            &mut rooms.0,
            &mut rooms.1,
            &mut error,
        )
    };
    let (size, sidecar_size) = (rooms.0.size, rooms.1.size);
    match status {
        raw::ACCEPTED => Ok(Ok(Stripped {
            program: written(&program, size)?,
            sidecar: written(&sidecar, sidecar_size)?,
        })),
        raw::SHORT => Ok(Err(sidecar_size)),
        status => Err(FileError::of(status, error)),
    }
}

impl ProgramFile {
    /// The file of the same program, whose chunks declare their depths. It is never longer than the one that was read, and its
    /// program is accepted again.
    ///
    /// The program is verified under the capabilities that it declares. [`Verifier::tighten_file`](crate::Verifier::tighten_file)
    /// does the same within a limit on work.
    ///
    /// ```
    /// use grain::{Limits, ProgramFile};
    ///
    /// // `Unit` and `Return`, which declare 5 operands and need one.
    /// let bytes = b"\0grn\x02\0\0\0\0\x02\x02\x13\0\x02\x05\0\0\0\0\0\0\0\0\0";
    /// let tightened = ProgramFile::tighten(bytes, &Limits::default())?;
    /// let file = ProgramFile::read(&tightened, &Limits::default())?;
    /// assert_eq!(file.chunks()[0].max_stack, 1);
    /// # Ok::<(), Box<dyn std::error::Error>>(())
    /// ```
    ///
    /// # Errors
    /// [`TightenError::File`] as [`ProgramFile::read`], [`TightenError::Verify`] as [`verify`](crate::verify).
    pub fn tighten(bytes: &[u8], limits: &Limits) -> Result<Vec<u8>, TightenError> {
        tighten(bytes, limits, raw::NO_LIMIT)
    }

    /// Takes the positions of a file into a sidecar file of their own. The file of the program is never longer than the one that
    /// was read. The file is read twice if the sidecar is longer than that.
    ///
    /// ```
    /// use grain::{Limits, ProgramFile};
    ///
    /// // `Unit` at 1:5 and `Return` at none.
    /// let bytes = b"\0grn\x02\0\0\x07\0\x02\x02\x13\0\x02\x01\0\0\0\0\0\0\0\0\x01\x02\x01\x01\x05\0";
    /// let stripped = ProgramFile::strip(bytes, &Limits::default())?;
    /// let file = ProgramFile::read(&stripped.program, &Limits::default())?;
    /// assert_eq!(file.table(), None);
    /// assert_eq!(stripped.sidecar, b"\0grn\x02\x01\x07\0\x04\x01\0\x01\x05\x01\0");
    /// # Ok::<(), Box<dyn std::error::Error>>(())
    /// ```
    ///
    /// # Errors
    /// Those of [`ProgramFile::read`]; [`FileError::NotRestorable`]; [`FileError::TooLong`] if an address above 4294967295 has a
    /// position.
    pub fn strip(bytes: &[u8], limits: &Limits) -> Result<Stripped, FileError> {
        let size = match strip(bytes, limits, bytes.len().min(limits.size))? {
            Ok(stripped) => return Ok(stripped),
            Err(size) => size,
        };
        strip(bytes, limits, size)?.map_err(|_| FileError::Unknown(raw::SHORT))
    }
}
