//! The library's states.
use super::error::{CompileError, HostError, LoadError, RunError};
use super::fault::Fault;
use super::rows::{Reader, Rows};
use super::script::Bounds;
use super::values::Value;
use crate::{raw, Caps, FileError, Limits, Refusal};
use std::ffi::c_char;
use std::ptr::{self, NonNull};
use std::slice;
use std::str;
use std::sync::{Mutex, PoisonError};

/// Room for the report of an error.
const REPORT_SIZE: usize = 4096;

/// A state of the library, which frees it.
pub(crate) struct Handle {
    state: NonNull<raw::State>,
    /// Room for values that are passed.
    rows: Rows,
}

impl Drop for Handle {
    fn drop(&mut self) {
        // SAFETY: the library made the state, and nothing else frees it.
        unsafe { raw::grain_state_free(self.state.as_ptr()) }
    }
}

/// The state into which a script was compiled or read. It isn't run: other states are made of it.
pub(crate) struct First(Mutex<Handle>);

// SAFETY: the lock lets one thread at a time use the state. Other states share nothing of it but the program, whose owners the
// library counts by atomic steps.
unsafe impl Send for First {}
// SAFETY: as above.
unsafe impl Sync for First {}

impl First {
    pub(crate) fn new(handle: Handle) -> First {
        First(Mutex::new(handle))
    }

    /// Another state of the same program, which both share.
    pub(crate) fn another(&self, bounds: &Bounds) -> Result<Handle, RunError> {
        let mut first = self.0.lock().unwrap_or_else(PoisonError::into_inner);
        first.another(bounds)
    }
}

/// What the library shows: the name of the function that it calls, and its arguments, or a value that a run returned.
pub(crate) struct Shown<'a> {
    name: &'a [u8],
    rows: &'a [raw::Value],
    texts: &'a [u8],
    count: u32,
}

impl<'a> Shown<'a> {
    /// The name, which the library has tested.
    pub(crate) fn name(&self) -> &'a str {
        str::from_utf8(self.name).unwrap_or_default()
    }

    pub(crate) fn values(&self) -> Vec<Value> {
        let mut values = Vec::new();
        self.fill(&mut values);
        values
    }

    /// Appends the values.
    pub(crate) fn fill(&self, values: &mut Vec<Value>) {
        Reader::new(self.rows, self.texts).fill(values, self.count as usize);
    }
}

/// The text that a call of the library writes as `snprintf` does.
fn text_of(write: impl Fn(*mut c_char, usize) -> usize) -> String {
    let mut text: Vec<u8> = Vec::new();
    loop {
        let room = text.len();
        let length = write(text.as_mut_ptr().cast(), room);
        if length < room || length == 0 {
            text.truncate(length);
            return String::from_utf8_lossy(&text).into_owned();
        }
        text.resize(length + 1, 0);
    }
}

impl Handle {
    fn new(state: NonNull<raw::State>) -> Handle {
        Handle {
            state,
            rows: Rows::default(),
        }
    }

    pub(crate) fn compile(text: &str, bounds: &Bounds) -> Result<Handle, CompileError> {
        // SAFETY: the text is as long as is said; the state and the report are valid.
        Handle::compiled(|state, report, report_size| unsafe {
            raw::grain_state_compile(
                state,
                text.as_ptr().cast(),
                text.len(),
                &bounds.raw(),
                report,
                report_size,
            )
        })
    }

    pub(crate) fn compile_modules(
        text: &str,
        modules: &[(&str, &str)],
        bounds: &Bounds,
    ) -> Result<Handle, CompileError> {
        let modules: Vec<raw::Module> = modules
            .iter()
            .map(|(name, source)| raw::Module {
                name: name.as_ptr().cast(),
                name_len: name.len(),
                source: source.as_ptr().cast(),
                source_len: source.len(),
            })
            .collect();
        // SAFETY: the list and all texts are as long as is said; the state and the report are valid.
        Handle::compiled(|state, report, report_size| unsafe {
            raw::grain_state_compile_modules(
                state,
                text.as_ptr().cast(),
                text.len(),
                modules.as_ptr(),
                modules.len(),
                &bounds.raw(),
                report,
                report_size,
            )
        })
    }

    /// What a call compiles. It writes a state, or a report as far as there is room.
    fn compiled(
        call: impl FnOnce(*mut *mut raw::State, *mut c_char, usize) -> u32,
    ) -> Result<Handle, CompileError> {
        let (mut state, mut report) = (ptr::null_mut(), vec![0u8; REPORT_SIZE]);
        let status = call(&mut state, report.as_mut_ptr().cast(), report.len());
        match (status, NonNull::new(state)) {
            (raw::ACCEPTED, Some(state)) => Ok(Handle::new(state)),
            (raw::NO_SCRIPT, _) => {
                let end = report.iter().position(|byte| *byte == 0);
                report.truncate(end.unwrap_or(REPORT_SIZE));
                Err(CompileError::Script(
                    String::from_utf8_lossy(&report).into_owned(),
                ))
            }
            (raw::BAD_LIMIT, _) => Err(CompileError::BadLimit),
            _ => Err(CompileError::OutOfMemory),
        }
    }

    pub(crate) fn load(
        bytes: &[u8],
        caps: Caps,
        limits: &Limits,
        bounds: &Bounds,
    ) -> Result<Handle, LoadError> {
        let mut state = ptr::null_mut();
        let (mut error, mut report) = (raw::ReadError::default(), raw::Report::default());
        // SAFETY: the list is as long as is said, and the records are valid.
        let status = unsafe {
            raw::grain_state_load(
                &mut state,
                bytes.as_ptr(),
                bytes.len(),
                caps.bits(),
                raw::NO_LIMIT,
                &limits.record(),
                &bounds.raw(),
                &mut error,
                &mut report,
            )
        };
        match (status, NonNull::new(state)) {
            (raw::ACCEPTED, Some(state)) => Ok(Handle::new(state)),
            (raw::REFUSED, _) => Err(LoadError::Refused(Refusal::new(
                report.refusal,
                report.visited,
            ))),
            (raw::MALFORMED | raw::BAD_LIMIT, _) => {
                Err(LoadError::File(FileError::of(status, error)))
            }
            (raw::TOO_MUCH_WORK, _) => Err(LoadError::TooMuchWork),
            (raw::FOREIGN_CONSTANT, _) => Err(LoadError::ForeignConstant),
            _ => Err(LoadError::OutOfMemory),
        }
    }

    fn another(&mut self, bounds: &Bounds) -> Result<Handle, RunError> {
        let mut state = ptr::null_mut();
        // SAFETY: the handle is valid, and what is written is.
        let status =
            unsafe { raw::grain_state_another(&mut state, self.state.as_ptr(), &bounds.raw()) };
        match NonNull::new(state) {
            Some(state) => Ok(Handle::new(state)),
            None => Err(refused(status, "")),
        }
    }

    /// The program file, unless memory was refused.
    pub(crate) fn file(&self) -> Option<Vec<u8>> {
        let mut bytes = Vec::new();
        loop {
            let mut room = raw::Room::of(&mut bytes);
            // SAFETY: the room is as long as is said.
            let status = unsafe { raw::grain_state_file(self.state.as_ptr(), &mut room) };
            let size = room.size;
            match status {
                raw::ACCEPTED => {
                    bytes.truncate(size);
                    return Some(bytes);
                }
                raw::SHORT => bytes.resize(size, 0),
                _ => return None,
            }
        }
    }

    pub(crate) fn register(&mut self, name: &str, parameters: u32) -> u32 {
        // SAFETY: the name is as long as is said.
        unsafe {
            raw::grain_state_register(
                self.state.as_ptr(),
                name.as_ptr().cast(),
                name.len(),
                parameters,
            )
        }
    }

    pub(crate) fn begin(&mut self, name: Option<&str>, arguments: &[Value]) -> u32 {
        let rows = self.rows.filled(arguments);
        let (at, len) = name.map_or((ptr::null(), 0), |name| (name.as_ptr().cast(), name.len()));
        // SAFETY: the name and the rows are as long as is said, and live until the call returns.
        unsafe { raw::grain_state_begin(self.state.as_ptr(), at, len, &rows) }
    }

    pub(crate) fn go(&mut self, turns: u64) -> (u32, u64) {
        let mut used = 0;
        // SAFETY: the handle is valid.
        let event = unsafe { raw::grain_state_resume(self.state.as_ptr(), turns, &mut used) };
        (event, used)
    }

    /// What the library has shown in a record.
    ///
    /// # Safety
    /// The library has written the values and the name since it was called last, and isn't called while the result lives.
    unsafe fn shown<'a>(name: &'a [u8], values: &raw::Values) -> Shown<'a> {
        // SAFETY: by the above; the library's pointers are never null.
        let (rows, texts) = unsafe {
            (
                slice::from_raw_parts(values.rows, values.rows_len),
                slice::from_raw_parts(values.texts, values.texts_len),
            )
        };
        Shown {
            name,
            rows,
            texts,
            count: values.count,
        }
    }

    /// The function that the last run calls, with its arguments, or the value that it returned.
    pub(crate) fn asked(&mut self) -> Result<Shown<'_>, RunError> {
        let mut asked = raw::Asked::default();
        // SAFETY: the handle is valid.
        let status = unsafe { raw::grain_state_asked(self.state.as_ptr(), &mut asked) };
        done(status, "")?;
        // SAFETY: the library has written the record, and isn't called while the handle is borrowed.
        unsafe {
            let name = slice::from_raw_parts(asked.name.cast::<u8>(), asked.name_len);
            Ok(Handle::shown(name, &asked.values))
        }
    }

    /// Replaces the receiver of the call for which the last run waits.
    pub(crate) fn receiver(&mut self, value: &Value) -> u32 {
        let rows = self.rows.filled(slice::from_ref(value));
        // SAFETY: the rows are as long as is said, and live until the call returns.
        unsafe { raw::grain_state_receiver(self.state.as_ptr(), &rows) }
    }

    /// Ends the call for which the last run waits.
    pub(crate) fn answer(&mut self, answer: Result<Value, HostError>) -> u32 {
        let state = self.state.as_ptr();
        match answer {
            Ok(value) => {
                let rows = self.rows.filled(slice::from_ref(&value));
                // SAFETY: the rows are as long as is said, and live until the call returns.
                unsafe { raw::grain_state_answer(state, &rows) }
            }
            Err(HostError::Throw(value)) => {
                let rows = self.rows.filled(slice::from_ref(&value));
                // SAFETY: as above.
                unsafe { raw::grain_state_throw(state, &rows) }
            }
            // SAFETY: the text is as long as is said.
            Err(HostError::Fail(why)) => unsafe {
                raw::grain_state_fail(state, why.as_ptr().cast(), why.len())
            },
        }
    }

    /// Why the last run failed. It has just done so.
    pub(crate) fn fault(&mut self) -> Fault {
        let mut failure = raw::Failure::default();
        // SAFETY: the handle is valid, and what is written is.
        let _written = unsafe { raw::grain_state_failure(self.state.as_ptr(), &mut failure) };
        let thrown = self.asked().ok().and_then(|shown| shown.values().pop());
        // SAFETY: the library writes no more than there is room for.
        let text = text_of(|text, size| unsafe {
            raw::grain_state_fault(self.state.as_ptr(), text, size)
        });
        Fault::of(&failure, thrown, text)
    }

    /// Sets a variable.
    pub(crate) fn set(&mut self, name: &str, value: &Value) -> u32 {
        let rows = self.rows.filled(slice::from_ref(value));
        // SAFETY: the name and the rows are as long as is said, and live until the call returns.
        unsafe {
            raw::grain_state_set(self.state.as_ptr(), name.as_ptr().cast(), name.len(), &rows)
        }
    }

    /// The value of a variable.
    pub(crate) fn get(&mut self, name: &str) -> Result<Value, RunError> {
        let mut values = raw::Values::default();
        // SAFETY: the name is as long as is said.
        let status = unsafe {
            raw::grain_state_get(
                self.state.as_ptr(),
                name.as_ptr().cast(),
                name.len(),
                &mut values,
            )
        };
        done(status, name)?;
        // SAFETY: the library has written the record, and is not called before the values are copied.
        let mut values = unsafe { Handle::shown(&[], &values) }.values();
        Ok(values.pop().unwrap_or_default())
    }

    /// The values of the host's own of which no copy is left.
    pub(crate) fn dropped(&mut self) -> Result<Vec<Value>, RunError> {
        let mut values = raw::Values::default();
        // SAFETY: the handle is valid.
        let status = unsafe { raw::grain_state_dropped(self.state.as_ptr(), &mut values) };
        done(status, "")?;
        // SAFETY: the library has written the record, and is not called before the values are copied.
        Ok(unsafe { Handle::shown(&[], &values) }.values())
    }

    /// How many bytes of memory the state has taken.
    pub(crate) fn memory(&self) -> usize {
        // SAFETY: the handle is valid.
        unsafe { raw::grain_state_memory(self.state.as_ptr()) }
    }

    /// What was printed and not yet taken.
    pub(crate) fn take_printed(&mut self) -> String {
        let state = self.state.as_ptr();
        // SAFETY: the library writes no more than there is room for.
        let text = text_of(|text, size| unsafe { raw::grain_state_printed(state, text, size) });
        // SAFETY: the handle is valid.
        unsafe { raw::grain_state_take_printed(state) }
        text
    }

    /// Ends the last run.
    pub(crate) fn stop(&mut self) {
        // SAFETY: the handle is valid.
        unsafe { raw::grain_state_stop(self.state.as_ptr()) }
    }

    /// Ends all runs, and drops all variables and the output.
    pub(crate) fn reset(&mut self) {
        // SAFETY: the handle is valid.
        unsafe { raw::grain_state_reset(self.state.as_ptr()) }
    }
}

/// Why the library refused a call.
fn refused(status: u32, name: &str) -> RunError {
    match status {
        raw::NO_NAME => RunError::NoName(name.into()),
        raw::NOT_NOW => RunError::NotNow,
        raw::OUT_OF_MEMORY => RunError::OutOfMemory,
        _ => RunError::BadValue,
    }
}

/// What the status of a call means.
pub(crate) fn done(status: u32, name: &str) -> Result<(), RunError> {
    if status == raw::ACCEPTED {
        Ok(())
    } else {
        Err(refused(status, name))
    }
}
