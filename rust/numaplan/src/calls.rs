//! How the library is called.
//!
//! What the calls of this crate owe: a slice's pointer isn't null and holds for the call, references
//! are apart, and a handle begins closed and is the library's alone. The exports require nothing more,
//! but for np_seat_join, where it is told.

use crate::Refused;

pub(crate) fn done(code: u32) -> Result<(), Refused> {
    match code {
        0 => Ok(()),
        code => Err(Refused(code)),
    }
}

/// Whether a worker still looks for a frame.
pub(crate) fn is_still(code: u32) -> Result<bool, Refused> {
    match code {
        40 => Ok(true),
        code => done(code).map(|()| false),
    }
}

/// Bytes of the library, which are ASCII.
pub(crate) fn text_of(bytes: &[u8]) -> String {
    String::from_utf8_lossy(bytes).into_owned()
}

/// What a call writes into a room of bytes: at first of this size, then of the size that it needs.
pub(crate) fn written(
    room: usize,
    mut call: impl FnMut(&mut [u8], &mut usize) -> u32,
) -> Result<String, Refused> {
    let (mut text, mut length) = (vec![0; room], 0);
    loop {
        match done(call(&mut text, &mut length)) {
            Err(Refused::NO_ROOM) => text.resize(length, 0),
            answer => return answer.map(|()| text_of(&text[..length])),
        }
    }
}
