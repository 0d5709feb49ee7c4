//! Enums that the library has by number.

/// An enum whose variants have the library's numbers. It has others as `Unknown`.
macro_rules! numbered {
    ($(#[$about:meta])* $name:ident, $($(#[$doc:meta])* $variant:ident = $number:literal,)*) => {
        $(#[$about])*
        #[derive(Clone, Copy, Debug, PartialEq, Eq, Hash)]
        #[non_exhaustive]
        pub enum $name {
            $($(#[$doc])* $variant,)*
            /// A number that this package doesn't know.
            Unknown(
                /// Its number.
                u32,
            ),
        }

        impl $name {
            pub(crate) fn of_number(number: u32) -> $name {
                match number {
                    $($number => $name::$variant,)*
                    number => $name::Unknown(number),
                }
            }
        }
    };
}

pub(crate) use numbered;
