//! `needs`: what the registers will need when files are added.
use crate::arguments::{number, Arguments};
use crate::batch::Set;
use crate::counts::Which;
use crate::files::Ahead;
use crate::folder::Opening;
use crate::printable::shown;
use crate::reading::{needs_of, only, Archive};
use crate::sleep_register::{write_header, write_node, Node, Stat, NODE_ROOM};
use crate::sources::{self, Sources};
use crate::words::{refused, Done};
use std::ffi::OsStr;
use std::path::Path;
use std::sync::Arc;

/// `needs`: what both registers will need for files under their names, or the content register for pieces of these lengths.
pub fn needs(arguments: &Arguments) -> Done<()> {
    if let Some(list) = arguments.option("--lengths") {
        let numbers = list.to_string_lossy().into_owned();
        let lengths = numbers.split(',').map(|one| number(OsStr::new(one), "--lengths")).collect::<Done<Vec<_>>>()?;
        let archive = Archive::open(only(&arguments.words(), "an archive")?, Opening::reading(arguments)?)?;
        return needs_of(&archive, Which::Content, &lengths);
    }
    let (path, operands) = sources::typed(arguments)?;
    let sources = Arc::new(sources::all(operands, Path::new(path), false)?);
    let archive = Archive::open(path, Opening::reading(arguments)?)?;
    let (records, lengths) = of_files(&archive, &sources)?;
    needs_of(&archive, Which::Metadata, &records)?;
    needs_of(&archive, Which::Content, &lengths)
}

/// The lengths of the records and of the chunks that files would have, behind a Header where there is none.
fn of_files(archive: &Archive, sources: &Arc<Sources>) -> Done<(Vec<u64>, Vec<u64>)> {
    let (content, mut record, mut records) = (archive.register(Which::Content), [0; NODE_ROOM], Set::default());
    if archive.register(Which::Metadata).n() == 0 {
        let length = write_header(&[0; 32], &mut record).map_err(|reason| refused("the Header", reason))?;
        records.push(&record[..length]);
    }
    let (mut lengths, mut start) = (Vec::new(), content.size());
    let mut files = Ahead::start(sources);
    for source in &sources.all {
        let read = files.next()?;
        let chunks = sources.cuts(source).lengths(read.size);
        let stat = Stat {
            offset: Some(content.n() + lengths.len() as u64),
            byte_offset: Some(start),
            blocks: Some(chunks.len() as u64),
            ..read.stat()
        };
        let node = Node { path: &source.name, stat: Some(stat), ..Node::default() };
        let written = write_node(&node, &mut record).map_err(|reason| refused(&shown(&source.name), reason))?;
        records.push(&record[..written]);
        start += read.size;
        lengths.extend(chunks);
    }
    Ok((records.lengths, lengths))
}
