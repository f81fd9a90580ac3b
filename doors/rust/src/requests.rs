//! Requests in JSON, as the program answers them.

use crate::calls::{mesh_answer, mesh_answer_within, mesh_why};
use crate::error::{ended, room, Error, Outcome, ROOM_TOO_SMALL};

/// A line is seldom longer than this many times its request.
const FACTOR: usize = 4;
const LEAST_ROOM: usize = 4096;

/// What the program answers to a request.
#[derive(Clone, Debug, PartialEq, Eq)]
pub struct Answer {
    /// The line that it writes, with a line feed at its end; for a request without an answer too.
    pub line: Vec<u8>,
    /// Whether that is an answer, or why there is none.
    pub status: Result<(), Error>,
}

/// Answers a request in JSON as the program does, byte for byte.
///
/// `OutOfMemory` is an error where there was no room for the line; where memory was refused inside the library, the line
/// says so, and the status does.
///
/// ```
/// use i_overlay_mesh::{answer};
///
/// let request = br#"{"op":"outline","int":"i32","out":"shapes","paths":[],"style":{"outer":1,"inner":1}}"#;
/// let told = answer(request)?;
/// assert_eq!((told.line.as_slice(), told.status), (b"{\"shapes\":[]}\n".as_slice(), Ok(())));
/// # Ok::<(), i_overlay_mesh::Error>(())
/// ```
pub fn answer(request: &[u8]) -> Result<Answer, Error> {
    let (outcome, line) = told(first_room(request), |room, needed| unsafe {
        // All lists are valid and overlap with nothing, and the call keeps none.
        mesh_answer(request.as_ptr(), request.len(), room.as_mut_ptr(), room.len(), needed)
    })?;
    Ok(Answer { line, status: ended(outcome) })
}

/// Answers a request that you did not write: as `answer` does, by at most so many splits of edges, or any number where
/// that is 0. `TooManySplits` is the status where it took more.
///
/// ```
/// use i_overlay_mesh::{answer_within, Error};
///
/// let bow = br#"{"op":"stroke","int":"i32","out":"shapes","paths":[[[0,0],[90,90],[90,0],[0,90]]],"style":{"width":9}}"#;
/// assert_eq!(answer_within(bow, 1)?.status, Err(Error::TooManySplits));
/// # Ok::<(), i_overlay_mesh::Error>(())
/// ```
pub fn answer_within(request: &[u8], most_splits: u64) -> Result<Answer, Error> {
    let (outcome, line) = told(first_room(request), |room, needed| unsafe {
        // All lists are valid and overlap with nothing, and the call keeps none.
        mesh_answer_within(request.as_ptr(), request.len(), most_splits, room.as_mut_ptr(), room.len(), needed)
    })?;
    Ok(Answer { line, status: ended(outcome) })
}

/// How many bytes are room enough for most lines that answer a request.
fn first_room(request: &[u8]) -> usize {
    LEAST_ROOM.max(request.len().saturating_mul(FACTOR))
}

/// Why bytes hold no request, as a text; nothing where they hold one.
///
/// ```
/// use i_overlay_mesh::{why};
///
/// assert!(why(b"{")?.unwrap().contains("line 1"));
/// # Ok::<(), i_overlay_mesh::Error>(())
/// ```
pub fn why(request: &[u8]) -> Result<Option<String>, Error> {
    let (outcome, text) = told(LEAST_ROOM, |room, needed| unsafe {
        // All lists are valid and overlap with nothing, and the call keeps none.
        mesh_why(request.as_ptr(), request.len(), room.as_mut_ptr(), room.len(), needed)
    })?;
    match ended(outcome) {
        Ok(()) => Ok(None),
        Err(Error::Malformed) => Ok(Some(String::from_utf8_lossy(&text).into_owned())),
        Err(error) => Err(error),
    }
}

/// How a call ended, and the bytes that it told, in a room of this size or of the one that it needs.
fn told(mut size: usize, call: impl Fn(&mut [u8], &mut usize) -> Outcome) -> Result<(Outcome, Vec<u8>), Error> {
    loop {
        let mut bytes = room(size)?;
        let outcome = call(&mut bytes, &mut size);
        if outcome != ROOM_TOO_SMALL {
            bytes.truncate(size);
            return Ok((outcome, bytes));
        }
    }
}
