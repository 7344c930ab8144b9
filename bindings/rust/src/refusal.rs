//! The numbers of refusals with their sentences, which the build takes from include/dct.h, their classes, and a refusal as an error.
use crate::ffi;
use std::error::Error;
use std::fmt;

macro_rules! numbers {
    ($($name:ident = $number:literal, $meaning:literal;)*) => {
        /// What a call answers: `OK`, or the number of its refusal.
        pub mod number {
            $(#[doc = $meaning] pub const $name: u32 = $number;)*

            /// All of them.
            pub const ALL: &[u32] = &[$($name),*];
        }

        fn meaning(number: u32) -> &'static str {
            match number {
                $(number::$name => $meaning,)*
                _ => "an unknown number",
            }
        }
    };
}

include!(concat!(env!("OUT_DIR"), "/numbers.rs"));

/// The class of a refusal, with the letter of include/dct.h. The first three are the errors of the Rust that the library follows.
#[derive(Clone, Copy, Debug, PartialEq, Eq, Hash)]
#[repr(u8)]
pub enum Class {
    /// The description, a position, the payload or the input does not fit.
    BadPayload = b'B',
    /// The payload is too short.
    NotEnoughData = b'N',
    /// The description asks for what its variant cannot do.
    InvalidDatabase = b'D',
    /// No error of the Rust: room, slices, records, tables, clear, values.
    Ours = b'P',
}

impl Class {
    const ALL: [Class; 4] = [Class::BadPayload, Class::NotEnoughData, Class::InvalidDatabase, Class::Ours];
}

/// Why a call did nothing. As text it is its number and its sentence, also where `main` returns it.
#[derive(Clone, Copy, PartialEq, Eq)]
pub struct Refusal {
    /// One of [`number`], or one of a later library that this crate does not know.
    pub number: u32,
    /// For [`number::NOT_ENOUGH_DATA`] the end that the payload needs, otherwise 0.
    pub expected: usize,
    /// For [`number::NOT_ENOUGH_DATA`] the length that it has, otherwise 0.
    pub actual: usize,
}

impl Refusal {
    /// The sentence that include/dct.h has for the number.
    pub fn meaning(&self) -> &'static str {
        meaning(self.number)
    }

    /// The class of the number, as the library tells it; none where the library knows no such refusal.
    pub fn class(&self) -> Option<Class> {
        let letter = ffi::class(self.number);
        Class::ALL.into_iter().find(|class| *class as u32 == letter)
    }
}

impl fmt::Display for Refusal {
    fn fmt(&self, f: &mut fmt::Formatter<'_>) -> fmt::Result {
        write!(f, "refusal {}: {}", self.number, self.meaning())?;
        if self.number == number::NOT_ENOUGH_DATA {
            write!(f, " (expected {}, actual {})", self.expected, self.actual)?;
        }
        Ok(())
    }
}

// what a `main` that returns an error prints
impl fmt::Debug for Refusal {
    fn fmt(&self, f: &mut fmt::Formatter<'_>) -> fmt::Result {
        fmt::Display::fmt(self, f)
    }
}

impl Error for Refusal {}
