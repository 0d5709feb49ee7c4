//! What a program needs of its host.
use crate::text::Buffer;
use std::fmt;
use std::iter::FusedIterator;
use std::ops::{
    BitAnd, BitAndAssign, BitOr, BitOrAssign, BitXor, BitXorAssign, Not, Sub, SubAssign,
};
use std::str::FromStr;

/// A set of capabilities: those that a host has, or those that a program needs.
///
/// No set has a bit without a name: [`from_bits`](Caps::from_bits) and `TryFrom<u16>` refuse a number with one. The operators
/// are those of sets. A set prints by its names, or by its bits as `{:04x}`:
///
/// ```
/// use grain::Caps;
///
/// let caps = Caps::ALL - Caps::CUSTOM_SYNTAX - (Caps::IMPORT | Caps::EXPORT);
/// assert!(caps.contains(Caps::ARRAY | Caps::MAP));
/// assert_eq!((!caps).to_string(), "EXPORT | IMPORT | CUSTOM_SYNTAX");
/// assert_eq!("ARRAY | MAP".parse(), Ok(Caps::ARRAY | Caps::MAP));
/// assert_eq!(Caps::try_from(0x000a), Ok(Caps::ARRAY | Caps::MAP));
/// assert_eq!(format!("{:04x}", Caps::ARRAY | Caps::MAP), "000a");
/// assert!(Caps::try_from(0x8000).is_err());
/// ```
#[derive(Clone, Copy, Default, PartialEq, Eq, PartialOrd, Ord, Hash)]
pub struct Caps(u16);

impl Caps {
    /// No capability.
    pub const NONE: Caps = Caps(0);
    /// Functions.
    pub const FUNCTION: Caps = Caps(0x0001);
    /// Arrays.
    pub const ARRAY: Caps = Caps(0x0002);
    /// Blobs.
    pub const BLOB: Caps = Caps(0x0004);
    /// Object maps.
    pub const MAP: Caps = Caps(0x0008);
    /// Function pointers.
    pub const FN_PTR: Caps = Caps(0x0010);
    /// Arguments bound to function pointers.
    pub const CURRYING: Caps = Caps(0x0020);
    /// Shared variables.
    pub const SHARING: Caps = Caps(0x0040);
    /// The receiver of a function.
    pub const THIS: Caps = Caps(0x0080);
    /// Indexing.
    pub const INDEXING: Caps = Caps(0x0100);
    /// Properties.
    pub const PROPERTY: Caps = Caps(0x0200);
    /// Methods.
    pub const METHOD: Caps = Caps(0x0400);
    /// Modules.
    pub const MODULE: Caps = Caps(0x0800);
    /// Exports.
    pub const EXPORT: Caps = Caps(0x1000);
    /// Imports.
    pub const IMPORT: Caps = Caps(0x2000);
    /// Custom syntax.
    pub const CUSTOM_SYNTAX: Caps = Caps(0x4000);
    /// All of them.
    pub const ALL: Caps = Caps(0x7fff);

    /// The set with these bits, or `None` if one of them has no name.
    #[must_use]
    pub const fn from_bits(bits: u16) -> Option<Caps> {
        if bits & !Caps::ALL.0 == 0 {
            Some(Caps(bits))
        } else {
            None
        }
    }

    /// The set of those of these bits that have a name.
    #[must_use]
    pub const fn from_bits_truncate(bits: u16) -> Caps {
        Caps(bits & Caps::ALL.0)
    }

    /// Its bits, as FORMAT.md has them ("Capabilities").
    #[must_use]
    pub const fn bits(self) -> u16 {
        self.0
    }

    /// Whether nothing is in it.
    #[must_use]
    pub const fn is_empty(self) -> bool {
        self.0 == 0
    }

    /// Whether all that is in the other is in it.
    #[must_use]
    pub const fn contains(self, other: Caps) -> bool {
        other.0 & !self.0 == 0
    }

    /// Whether something is in both.
    #[must_use]
    pub const fn intersects(self, other: Caps) -> bool {
        self.0 & other.0 != 0
    }

    /// All that is in one of them or in both: `|` for constants.
    #[must_use]
    pub const fn union(self, other: Caps) -> Caps {
        Caps(self.0 | other.0)
    }

    /// All that is in it and not in the other: `-` for constants.
    #[must_use]
    pub const fn difference(self, other: Caps) -> Caps {
        Caps(self.0 & !other.0)
    }

    /// Adds all of the other to it.
    pub fn insert(&mut self, other: Caps) {
        self.0 |= other.0;
    }

    /// Removes all of the other from it.
    pub fn remove(&mut self, other: Caps) {
        self.0 &= !other.0;
    }

    /// Its capabilities, each as a set of its own, the lowest bit first.
    #[must_use]
    pub fn iter(self) -> CapsIter {
        CapsIter(self)
    }

    /// The name of the one capability that it is.
    #[must_use]
    pub fn name(self) -> Option<&'static str> {
        NAMES
            .iter()
            .find(|(caps, _)| *caps == self)
            .map(|(_, name)| *name)
    }
}

const NAMES: [(Caps, &str); 15] = [
    (Caps::FUNCTION, "FUNCTION"),
    (Caps::ARRAY, "ARRAY"),
    (Caps::BLOB, "BLOB"),
    (Caps::MAP, "MAP"),
    (Caps::FN_PTR, "FN_PTR"),
    (Caps::CURRYING, "CURRYING"),
    (Caps::SHARING, "SHARING"),
    (Caps::THIS, "THIS"),
    (Caps::INDEXING, "INDEXING"),
    (Caps::PROPERTY, "PROPERTY"),
    (Caps::METHOD, "METHOD"),
    (Caps::MODULE, "MODULE"),
    (Caps::EXPORT, "EXPORT"),
    (Caps::IMPORT, "IMPORT"),
    (Caps::CUSTOM_SYNTAX, "CUSTOM_SYNTAX"),
];

impl BitOr for Caps {
    type Output = Caps;

    fn bitor(self, other: Caps) -> Caps {
        self.union(other)
    }
}

impl BitAnd for Caps {
    type Output = Caps;

    fn bitand(self, other: Caps) -> Caps {
        Caps(self.0 & other.0)
    }
}

impl BitXor for Caps {
    type Output = Caps;

    fn bitxor(self, other: Caps) -> Caps {
        Caps(self.0 ^ other.0)
    }
}

impl Sub for Caps {
    type Output = Caps;

    fn sub(self, other: Caps) -> Caps {
        self.difference(other)
    }
}

/// All capabilities that aren't in the set.
impl Not for Caps {
    type Output = Caps;

    fn not(self) -> Caps {
        Caps::ALL.difference(self)
    }
}

impl BitOrAssign for Caps {
    fn bitor_assign(&mut self, other: Caps) {
        *self = *self | other;
    }
}

impl BitAndAssign for Caps {
    fn bitand_assign(&mut self, other: Caps) {
        *self = *self & other;
    }
}

impl BitXorAssign for Caps {
    fn bitxor_assign(&mut self, other: Caps) {
        *self = *self ^ other;
    }
}

impl SubAssign for Caps {
    fn sub_assign(&mut self, other: Caps) {
        *self = *self - other;
    }
}

impl Extend<Caps> for Caps {
    fn extend<I: IntoIterator<Item = Caps>>(&mut self, sets: I) {
        for set in sets {
            self.insert(set);
        }
    }
}

impl FromIterator<Caps> for Caps {
    fn from_iter<I: IntoIterator<Item = Caps>>(sets: I) -> Caps {
        sets.into_iter().fold(Caps::NONE, Caps::union)
    }
}

impl IntoIterator for Caps {
    type Item = Caps;
    type IntoIter = CapsIter;

    fn into_iter(self) -> CapsIter {
        self.iter()
    }
}

/// The capabilities of a set, one by one.
#[derive(Clone, Debug)]
pub struct CapsIter(Caps);

impl Iterator for CapsIter {
    type Item = Caps;

    fn next(&mut self) -> Option<Caps> {
        let lowest = Caps(self.0 .0 & self.0 .0.wrapping_neg());
        self.0.remove(lowest);
        (!lowest.is_empty()).then_some(lowest)
    }

    fn size_hint(&self) -> (usize, Option<usize>) {
        let left = self.0 .0.count_ones() as usize;
        (left, Some(left))
    }
}

impl ExactSizeIterator for CapsIter {}
impl FusedIterator for CapsIter {}

/// The names, with ` | ` between them; `NONE` for the empty set.
impl fmt::Display for Caps {
    fn fmt(&self, f: &mut fmt::Formatter<'_>) -> fmt::Result {
        if self.is_empty() {
            return f.pad("NONE");
        }
        // All fifteen names take 140 bytes.
        let mut text = Buffer::<160>::new();
        for (place, caps) in self.iter().enumerate() {
            text.push(if place == 0 { "" } else { " | " });
            text.push(caps.name().unwrap_or_default());
        }
        f.pad(&text)
    }
}

/// The bits, as FORMAT.md writes them with `{:04x}`.
impl fmt::LowerHex for Caps {
    fn fmt(&self, f: &mut fmt::Formatter<'_>) -> fmt::Result {
        fmt::LowerHex::fmt(&self.0, f)
    }
}

impl fmt::Debug for Caps {
    fn fmt(&self, f: &mut fmt::Formatter<'_>) -> fmt::Result {
        write!(f, "Caps({self})")
    }
}

/// A text or a number isn't a set of capabilities: it has a name or a bit that no capability has.
#[derive(Clone, Copy, Debug, PartialEq, Eq, Hash)]
#[non_exhaustive]
pub struct UnknownCap;

impl fmt::Display for UnknownCap {
    fn fmt(&self, f: &mut fmt::Formatter<'_>) -> fmt::Result {
        f.pad("not a set of capabilities")
    }
}

impl std::error::Error for UnknownCap {}

/// The set with these bits, as [`Caps::from_bits`] makes it.
impl TryFrom<u16> for Caps {
    type Error = UnknownCap;

    fn try_from(bits: u16) -> Result<Caps, UnknownCap> {
        Caps::from_bits(bits).ok_or(UnknownCap)
    }
}

/// Reads what [`Caps`] prints, and `ALL`.
impl FromStr for Caps {
    type Err = UnknownCap;

    fn from_str(text: &str) -> Result<Caps, UnknownCap> {
        text.split('|').map(|word| named(word.trim())).collect()
    }
}

fn named(word: &str) -> Result<Caps, UnknownCap> {
    match word {
        "NONE" => Ok(Caps::NONE),
        "ALL" => Ok(Caps::ALL),
        word => NAMES
            .iter()
            .find(|(_, name)| *name == word)
            .map(|(caps, _)| *caps)
            .ok_or(UnknownCap),
    }
}

#[cfg(test)]
mod tests {
    use super::*;

    #[test]
    fn sets_are_sets() {
        let some = Caps::ARRAY | Caps::MAP;
        assert_eq!(some.bits(), 0x000a);
        assert_eq!(some & Caps::MAP, Caps::MAP);
        assert_eq!(some ^ Caps::MAP, Caps::ARRAY);
        assert_eq!(some - Caps::MAP, Caps::ARRAY);
        assert_eq!(!Caps::ALL, Caps::NONE);
        assert!(some.intersects(Caps::MAP) && !some.intersects(Caps::BLOB));
        assert!(some.contains(Caps::NONE) && !some.contains(Caps::ALL));
        let mut built = Caps::NONE;
        built |= Caps::THIS;
        built.extend([Caps::ARRAY, Caps::MAP]);
        built -= Caps::THIS;
        built ^= Caps::BLOB;
        built &= Caps::ALL;
        assert_eq!(built, some | Caps::BLOB);
    }

    #[test]
    fn each_bit_has_one_name() {
        assert_eq!(Caps::ALL.iter().len(), 15);
        assert_eq!(Caps::ALL.iter().collect::<Caps>(), Caps::ALL);
        for caps in Caps::ALL {
            assert_eq!(caps.name().unwrap().parse(), Ok(caps));
        }
        assert_eq!(Caps::from_bits(0x7fff), Some(Caps::ALL));
        assert_eq!(Caps::from_bits(0x8000), None);
        assert_eq!(Caps::from_bits_truncate(0xffff), Caps::ALL);
        assert_eq!(Caps::ALL.name(), None);
    }

    #[test]
    fn names_are_printed_and_read() {
        let some = Caps::ARRAY | Caps::MAP;
        assert_eq!(some.to_string(), "ARRAY | MAP");
        assert_eq!(format!("{some:?}"), "Caps(ARRAY | MAP)");
        assert_eq!(Caps::NONE.to_string(), "NONE");
        assert_eq!("NONE|ARRAY|MAP".parse(), Ok(some));
        assert_eq!("ARRAYS".parse::<Caps>(), Err(UnknownCap));
        assert_eq!("".parse::<Caps>(), Err(UnknownCap));
        assert_eq!(
            format!("{:>8}|{:<6}|{:.3}", Caps::MAP, Caps::NONE, some),
            "     MAP|NONE  |ARR"
        );
        assert_eq!(Caps::ALL.to_string().len(), 140);
        assert_eq!(Caps::ALL.to_string().parse(), Ok(Caps::ALL));
        assert_eq!(format!("{some:04x} {:#x}", Caps::ALL), "000a 0x7fff");
        assert_eq!(
            (Caps::try_from(0x7fff), Caps::try_from(0xffff)),
            (Ok(Caps::ALL), Err(UnknownCap))
        );
    }
}
