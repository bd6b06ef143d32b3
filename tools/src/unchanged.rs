//! Files whose names the archive has already, with the same bytes: `add --changed` passes over them.
use crate::counts::{Which, ENTRY, HEADER};
use crate::files::Reading;
use crate::kept::Lent;
use crate::progress::Counter;
use crate::reading::Archive;
use crate::sleep_register::{hash_parts, Copied, Refusal, Register};
use crate::sources::Sources;
use crate::walk::{chunks_of, headed, records, Said};
use crate::words::{refused, Done};
use std::collections::HashMap;

const NOT_HELD: u64 = 18;

/// What the archive has under the names of files, for those that are passed over where nothing changed.
#[derive(Default)]
pub struct Known {
    said: Vec<Option<Said<'static>>>,
    /// The count of records that was walked over.
    records: Option<u64>,
}

impl Known {
    /// Walks over the records, unless this command alone has added some since.
    pub fn look(&mut self, archive: &Archive, sources: &Sources) -> Done<()> {
        let metadata = archive.register(Which::Metadata);
        if self.records == Some(metadata.n()) {
            return Ok(());
        }
        let trouble = |reason| refused(&archive.named(Which::Metadata), reason);
        let numbers = sources.all.iter().zip(0u32..).map(|(source, number)| (&source.name[..], number)).collect::<HashMap<_, _>>();
        let (mut left, mut counter) = (numbers.len(), Counter::new("reading records", metadata.n()));
        self.said = vec![None; sources.all.len()];
        headed(&metadata).map_err(trouble)?;
        for (record, read) in records(archive) {
            counter.next();
            let node = read.map_err(trouble)?;
            let said = numbers.get(node.path).map(|number| &mut self.said[*number as usize]);
            if let Some(said) = said.filter(|said| said.is_none()) {
                (*said, left) = (Some(Said::of(record, &node).unnamed()), left - 1);
            }
            if left == 0 {
                break;
            }
        }
        self.records = Some(metadata.n());
        Ok(())
    }

    pub fn of(&self, number: usize) -> Option<&Said<'static>> {
        self.said.get(number)?.as_ref()
    }

    pub fn committed(&mut self, records: u64) {
        self.records = Some(records);
    }
}

/// Whether a piece that is there has the same bytes as a file, however it was cut. A chunk that is not held is known by its hash.
pub fn same(archive: &Archive, said: &Said, read: &mut Reading) -> Done<bool> {
    let content = archive.register(Which::Content);
    let trouble = |reason| refused(&archive.named(Which::Content), reason);
    let (Some(_), Ok(chunks)) = (said.size().filter(|size| *size == read.size), chunks_of(archive, said)) else { return Ok(false) };
    let (mut room, mut same) = (Vec::new(), true);
    for chunk in chunks.numbers() {
        let (_, length) = content.place(chunk).map_err(trouble)?;
        let part = read.next(length, &mut room)?;
        same = part.len() as u64 == length
            && match content.read(chunk) {
                Ok(bytes) => bytes == part,
                Err(reason) if reason.number == NOT_HELD => leaf_hash(&content, chunk) == hashed(part).map_err(trouble)?,
                Err(reason) => return Err(trouble(reason)),
            };
        if !same {
            break;
        }
    }
    read.again()?;
    Ok(same)
}

/// The stored hash of a chunk's leaf.
fn leaf_hash<'a>(content: &Lent<'a>, chunk: u64) -> &'a [u8] {
    let (Lent::Whole(Register { tree, .. }) | Lent::Copy(Copied { tree, .. })) = content;
    let at = (HEADER + ENTRY * 2 * chunk) as usize;
    &tree[at..at + 32]
}

/// The hash that a leaf with these bytes has.
fn hashed(bytes: &[u8]) -> Result<[u8; 32], Refusal> {
    let prefix = [&[0], &(bytes.len() as u64).to_be_bytes()[..]].concat();
    hash_parts(&[], &prefix, bytes)
}
