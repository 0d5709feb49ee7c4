//! Texts that take no memory.
use std::fmt;
use std::ops::Deref;

/// A text of at most `N` bytes; what is longer is cut at the end of a character.
#[derive(Clone, Copy)]
pub(crate) struct Buffer<const N: usize> {
    bytes: [u8; N],
    len: usize,
}

impl<const N: usize> Buffer<N> {
    pub(crate) const fn new() -> Buffer<N> {
        Buffer {
            bytes: [0; N],
            len: 0,
        }
    }

    pub(crate) fn push(&mut self, text: &str) {
        let mut end = text.len().min(N - self.len);
        while !text.is_char_boundary(end) {
            end -= 1;
        }
        self.bytes[self.len..self.len + end].copy_from_slice(&text.as_bytes()[..end]);
        self.len += end;
    }
}

impl<const N: usize> Deref for Buffer<N> {
    type Target = str;

    fn deref(&self) -> &str {
        std::str::from_utf8(&self.bytes[..self.len]).unwrap_or_default()
    }
}

impl<const N: usize> fmt::Write for Buffer<N> {
    fn write_str(&mut self, text: &str) -> fmt::Result {
        self.push(text);
        Ok(())
    }
}

/// How long a [`Text`] is at most.
const LONGEST: usize = crate::raw::TEXT_SIZE - 1;

/// A short text that takes no memory: a line of the line program ([`Refusal::line`](crate::Refusal::line)).
///
/// It dereferences to a `str`.
#[derive(Clone, Copy)]
pub struct Text(Buffer<LONGEST>);

impl Text {
    /// What the library writes into room for the longest text, as `snprintf` does: `write` gets the room and its size, and
    /// returns how long the text is.
    pub(crate) fn written_by(write: impl FnOnce(*mut std::ffi::c_char, usize) -> usize) -> Text {
        let mut room = [0u8; LONGEST + 1];
        let length = write(room.as_mut_ptr().cast(), room.len());
        let mut text = Buffer::new();
        text.push(std::str::from_utf8(&room[..length.min(LONGEST)]).unwrap_or_default());
        Text(text)
    }
}

impl Deref for Text {
    type Target = str;

    fn deref(&self) -> &str {
        &self.0
    }
}

impl AsRef<str> for Text {
    fn as_ref(&self) -> &str {
        self
    }
}

impl PartialEq<str> for Text {
    fn eq(&self, other: &str) -> bool {
        **self == *other
    }
}

impl PartialEq<&str> for Text {
    fn eq(&self, other: &&str) -> bool {
        **self == **other
    }
}

impl PartialEq for Text {
    fn eq(&self, other: &Text) -> bool {
        **self == **other
    }
}

impl Eq for Text {}

impl fmt::Display for Text {
    fn fmt(&self, f: &mut fmt::Formatter<'_>) -> fmt::Result {
        f.pad(self)
    }
}

impl fmt::Debug for Text {
    fn fmt(&self, f: &mut fmt::Formatter<'_>) -> fmt::Result {
        fmt::Debug::fmt(&**self, f)
    }
}

#[cfg(test)]
mod tests {
    use super::*;

    #[test]
    fn what_is_too_long_is_cut_at_a_character() {
        let mut text = Buffer::<5>::new();
        text.push("ab");
        text.push("ééé");
        assert_eq!(&*text, "abé");
        text.push("cd");
        assert_eq!(&*text, "abéc");
    }
}
