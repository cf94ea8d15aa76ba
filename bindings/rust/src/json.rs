//! Why a stream is not written as JSON.
use crate::{Limits, Refused, Unwritten};
use std::{error, fmt};

/// Why a stream is not written as JSON.
#[derive(Clone, Copy, Debug, PartialEq, Eq)]
#[non_exhaustive]
pub enum JsonError {
    /// The input is rejected, its text would be too long, or memory was refused.
    Refused(Refused),
    /// The input is accepted, and JSON cannot express it: a key is no string, a float is `.inf`, `-.inf` or `.nan`, or a tag is none of
    /// the core schema. `yamlreview show --format=json` says which it is.
    NoJson,
    /// The lines did not pass their check: a fault of the library. No input is known for this.
    Unlike,
}

impl JsonError {
    /// The line and the column, both from 1, of the place in the input: that of [`Refused::position`], or of the first node that JSON
    /// cannot express. The input is read again.
    ///
    /// ```
    /// let input = b"a: 1\nb: .inf\n";
    /// assert_eq!(yamlcanon::to_json(input).unwrap_err().position(input), Some((2, 4)));
    /// ```
    pub fn position(&self, input: &[u8]) -> Option<(usize, usize)> {
        match self {
            JsonError::Refused(refused) => refused.position(input),
            JsonError::NoJson => Limits::default().json_position(input),
            JsonError::Unlike => None,
        }
    }

    pub(crate) fn of(unwritten: Unwritten) -> JsonError {
        match unwritten.status {
            2 => JsonError::Refused(unwritten.fault.refused(false)),
            4 => JsonError::NoJson,
            _ => JsonError::Unlike,
        }
    }
}

impl fmt::Display for JsonError {
    fn fmt(&self, f: &mut fmt::Formatter<'_>) -> fmt::Result {
        match self {
            JsonError::Refused(refused) => fmt::Display::fmt(refused, f),
            JsonError::NoJson => f.write_str("JSON cannot express this stream"),
            JsonError::Unlike => f.write_str("the lines of JSON did not pass their check; this is a bug of the library"),
        }
    }
}

impl error::Error for JsonError {}
