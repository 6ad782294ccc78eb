//! The numbers that a call answers with.

use std::fmt;

/// What a call gives: its value, or why it was refused.
pub type Result<T> = std::result::Result<T, Error>;

macro_rules! errors {
    ($($(#[$doc:meta])* $name:ident = $number:literal, $text:literal;)*) => {
        /// Why a call was refused. A refused call changes nothing but the error slot, which takes
        /// the codes from 0x0500 on; only a bind at a refused target still makes its name.
        #[derive(Clone, Copy, Debug, PartialEq, Eq, Hash)]
        #[non_exhaustive]
        pub enum Error {
            $($(#[$doc])* $name,)*
        }

        impl Error {
            /// The number of the refusal.
            pub const fn number(self) -> u32 {
                match self {
                    $(Error::$name => $number,)*
                }
            }

            /// The refusal of a number; none for 0, which is a call that was done, and for
            /// numbers that no call answers with.
            pub const fn from_number(number: u32) -> Option<Error> {
                match number {
                    $($number => Some(Error::$name),)*
                    _ => None,
                }
            }

            const fn text(self) -> &'static str {
                match self {
                    $(Error::$name => $text,)*
                }
            }
        }

        #[cfg(test)]
        const ALL: &[Error] = &[$(Error::$name),*];
    };
}

errors! {
    /// 1: the context or the lent store is not sound. No call through this crate answers so.
    NotSound = 1, "context or borrowed store not sound";
    /// 2: the guest bytes end past 2^32.
    GuestTooLong = 2, "guest bytes end past 2^32";
    /// 3: the stage mask is 16 or more.
    StageMask = 3, "stage mask of 16 or more";
    /// 4: all 16 buffers live.
    NoBufferLeft = 4, "no buffer left";
    /// 5: there is no name left, or the name is 2^32-1.
    NoNameLeft = 5, "no buffer name left, or a name too large";
    /// 6: a buffer has at most 4,096 bytes.
    BufferTooLarge = 6, "buffer of more than 4,096 bytes";
    /// 7: the indices are not in readable guest memory.
    IndicesUnreadable = 7, "indices cannot be read";
    /// 8: the vertex array is not enabled, or it has neither a buffer nor a pointer.
    NoVertexArray = 8, "vertex array not enabled, or without buffer and pointer";
    /// 9: the position of an index cannot be fetched.
    PositionUnreadable = 9, "a position cannot be fetched";
    /// 10: points and lines make no triangles.
    NoTriangles = 10, "points or lines: no triangles";
    /// 11: the output has fewer than 51 f32 for each triangle.
    OutputTooShort = 11, "output too short";
    /// 23: words that are no record. No list of this crate has any.
    NoRecord = 23, "words that are no record";
    /// 0x0500: an enumerant or a unit that the call does not know.
    InvalidEnum = 0x0500, "invalid enum";
    /// 0x0501: a number out of its range.
    InvalidValue = 0x0501, "invalid value";
    /// 0x0502: no buffer is bound there.
    InvalidOperation = 0x0502, "invalid operation";
    /// 0x0503: 15 matrices are saved already.
    StackOverflow = 0x0503, "stack overflow";
    /// 0x0504: no matrix is saved.
    StackUnderflow = 0x0504, "stack underflow";
}

impl fmt::Display for Error {
    fn fmt(&self, f: &mut fmt::Formatter<'_>) -> fmt::Result {
        f.write_str(self.text())
    }
}

impl std::error::Error for Error {}

#[cfg(test)]
mod tests {
    use super::*;

    #[test]
    fn numbers_and_errors_name_each_other() {
        for &error in ALL {
            assert_eq!(Error::from_number(error.number()), Some(error));
            assert!(!error.to_string().is_empty());
        }
        let known = (0..0x0600).filter(|&n| Error::from_number(n).is_some());
        let numbers: Vec<u32> = (1..=11).chain([23]).chain(0x0500..=0x0504).collect();
        assert_eq!(known.collect::<Vec<u32>>(), numbers);
    }
}
