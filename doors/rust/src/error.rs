//! Why there is no answer.

use std::fmt;

/// Why there is no answer.
#[derive(Clone, Copy, Debug, PartialEq, Eq)]
#[non_exhaustive]
pub enum Error {
    /// What is to be drawn would pass the safe range.
    OutOfRange,
    /// What was given is nothing that the call serves: bytes that are no request, a length or an area that does not fit
    /// 16 bits, or 32, where coordinates have 16, or lists of shapes whose ends are none.
    Malformed,
    /// Memory was refused.
    OutOfMemory,
    /// More splits were made than the limit that was given.
    TooManySplits,
}

impl fmt::Display for Error {
    fn fmt(&self, to: &mut fmt::Formatter<'_>) -> fmt::Result {
        to.write_str(match self {
            Error::OutOfRange => "what is to be drawn would pass the safe range",
            Error::Malformed => "what was given is nothing that the call serves",
            Error::OutOfMemory => "memory was refused",
            Error::TooManySplits => "more splits were made than the limit",
        })
    }
}

impl std::error::Error for Error {}

/// How a call of the library ended, as its header numbers it.
pub(crate) type Outcome = u8;

pub(crate) const ROOM_TOO_SMALL: Outcome = 5;

/// What an outcome means that is not `ROOM_TOO_SMALL`.
pub(crate) fn ended(outcome: Outcome) -> Result<(), Error> {
    match outcome {
        0 => Ok(()),
        1 => Err(Error::OutOfRange),
        2 => Err(Error::Malformed),
        3 => Err(Error::OutOfMemory),
        4 => Err(Error::TooManySplits),
        _ => unreachable!("the library has no outcome {outcome} here"),
    }
}

/// A list of so many items, to be written over.
pub(crate) fn room<T: Clone + Default>(size: usize) -> Result<Vec<T>, Error> {
    let mut items = Vec::new();
    items.try_reserve_exact(size).map_err(|_| Error::OutOfMemory)?;
    items.resize(size, T::default());
    Ok(items)
}
