//! The bytes of a piece of several chunks, one behind the other, each chunk after its hash was compared.
use crate::counts::Which;
use crate::outputs::{self, Sink};
use crate::progress::Counter;
use crate::reading::Archive;
use crate::walk::Chunks;
use crate::words::{refused, Done, Trouble};
use std::ffi::OsStr;

/// So many bytes of a piece are made this process's own at once.
pub const AHEAD: u64 = 4 << 20;

/// Hands on the chunks of a piece in their order. Each is held to where the one before it ends, and the last to where the record says.
pub fn each(archive: &mut Archive, chunks: &Chunks, ahead: u64, put: &mut dyn FnMut(&[u8]) -> Done<()>) -> Done<()> {
    let (mut at, end) = (chunks.start, chunks.start + chunks.size);
    for chunk in chunks.numbers() {
        let place = archive.register(Which::Content).place(chunk).map_err(|reason| refused(&archive.named(Which::Content), reason))?;
        if place.0 != at || place.1 > end - at {
            return Err(Trouble::Refused(format!(
                "{}: chunk {chunk} lies elsewhere than its piece's record says",
                archive.named(Which::Content)
            )));
        }
        put(archive.read_own(Which::Content, chunk, ahead.max((end - at).min(AHEAD)))?)?;
        at += place.1;
    }
    match at == end {
        true => Ok(()),
        false => Err(Trouble::Refused(format!("{}: a piece is shorter than its record says", archive.named(Which::Content)))),
    }
}

/// Gives a piece out. Where bytes that are given out can't be taken back, all are read once before.
pub fn give(archive: &mut Archive, chunks: &Chunks, to: Option<&OsStr>) -> Done<()> {
    outputs::give_by(to, &mut |sink: &mut Sink| {
        if !sink.can_be_taken_back() {
            let mut counter = Counter::new("reading chunks", chunks.count);
            each(archive, chunks, 0, &mut |_| {
                counter.next();
                Ok(())
            })?;
        }
        each(archive, chunks, 0, &mut |bytes| sink.put(bytes))
    })
}
