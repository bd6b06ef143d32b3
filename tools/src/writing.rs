//! `release`: pieces that are no longer held.
use crate::arguments::Arguments;
use crate::changes::changes;
use crate::commit::{commit, Room};
use crate::counts::Which;
use crate::folder::{Folder, Opening};
use crate::meant::{all_meant, Meant};
use crate::reading::Archive;
use crate::words::{refused, usage, Done};
use std::path::Path;

/// `release`: content chunks that are no longer held.
pub fn release(arguments: &Arguments) -> Done<()> {
    let words = arguments.words();
    let Some((path, chunks)) = words.split_first().filter(|(_, chunks)| !chunks.is_empty()) else {
        return usage("an archive and chunks are needed");
    };
    let archive = Archive::of(Folder::open(Path::new(path), Opening::writing(arguments)?)?)?;
    let chunks = all_meant(&archive, chunks)?;
    archive.give_up_pages();
    let folder = &archive.folder;
    let mut content = folder.to_write(Which::Content)?;
    for chunk in chunks.iter().flat_map(Meant::numbers) {
        content.release(chunk).map_err(|reason| refused(&format!("chunk {chunk} of the content"), reason))?;
    }
    commit(folder, changes(folder, Which::Content, content.files())?, Room::Kept)
}
