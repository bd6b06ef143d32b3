//! Packets: a chunk with the hashes that show it to stand under a root hash.
use crate::arguments::{number, Arguments};
use crate::changes::changes;
use crate::commit::{commit, Room};
use crate::counts::Which;
use crate::folder::{Folder, Opening};
use crate::inputs;
use crate::meant::{meant, Meant};
use crate::outputs::{self, say};
use crate::printable::shown;
use crate::reading::{only, Archive};
use crate::sleep_register::{self as proved, PACKET_EXTRA};
use crate::words::{counted, refusal, refused, usage, Done, Trouble};
use std::ffi::{OsStr, OsString};
use std::path::Path;

/// A packet's file in messages.
fn named(file: &OsStr) -> String {
    shown(file.as_encoded_bytes())
}

/// `packet`: made of an archive's chunk; taken in by another archive; checked, or two compared, without an archive.
pub fn packet(arguments: &Arguments) -> Done<()> {
    let words = arguments.words();
    let Some((kind, words)) = words.split_first() else { return usage("packet make, packet take, packet check or packet compare") };
    match kind.as_encoded_bytes() {
        b"make" => make_packet(arguments, words),
        b"take" => take_packet(arguments, words),
        b"check" => check_packet(arguments, words),
        b"compare" => compare_packets(arguments, words),
        _ => usage("packet make, packet take, packet check or packet compare"),
    }
}

/// `packet make`: of a piece of several chunks a packet of each, in files with the chunk's number behind their name.
fn make_packet(arguments: &Arguments, words: &[&OsStr]) -> Done<()> {
    let [path, chunk] = words[..] else { return usage("an archive and a chunk are needed") };
    let archive = Archive::open(path, Opening::reading(arguments)?)?;
    let (which, meant) = match arguments.has("--metadata") {
        true => (Which::Metadata, Meant::Chunk(number(chunk, "a chunk")?)),
        false => (Which::Content, meant(&archive, chunk)?),
    };
    let register = archive.register(which);
    let register = register.first(arguments.number("--first")?.unwrap_or(register.n())).map_err(|reason| archive.trouble(which, reason))?;
    let numbers = meant.numbers();
    let several = numbers.end - numbers.start > 1;
    let to = match (arguments.option("-o").filter(|file| *file != "-"), several) {
        (None, true) => {
            let (first, last) = (numbers.start, numbers.end - 1);
            return usage(format!("{}: chunks {first} to {last}: -o FILE is needed, for a packet of each in FILE.NUMBER", named(chunk)));
        }
        (to, _) => to,
    };
    let mut out = vec![0; inputs::LONGEST + PACKET_EXTRA];
    for chunk in numbers {
        let length = register.make_packet(chunk, &mut out).map_err(|reason| refused(&archive.named(which), reason))?;
        let numbered = to.filter(|_| several).map(|file| [file, OsStr::new(&format!(".{chunk}"))].into_iter().collect::<OsString>());
        outputs::give(numbered.as_deref().or(to), &out[..length])?;
    }
    Ok(())
}

/// What a packet is checked against: the count of chunks, the chunk number and the root hash.
fn against(arguments: &Arguments) -> Done<(u64, u64, [u8; 32])> {
    match (arguments.number("--chunks")?, arguments.number("--number")?, arguments.root("--root")?) {
        (Some(n), Some(chunk), Some(root)) => Ok((n, chunk, root)),
        _ => usage("--chunks, --number and --root are needed"),
    }
}

/// A packet of a file; a longer one than any is cut, and refused as no packet.
fn packet_in(file: &OsStr) -> Done<Vec<u8>> {
    Ok(inputs::at_most(file, inputs::LONGEST + PACKET_EXTRA + 1)?.0)
}

fn check_packet(arguments: &Arguments, words: &[&OsStr]) -> Done<()> {
    let file = only(words, "a packet's file")?;
    let ((n, chunk, root), packet) = (against(arguments)?, packet_in(file)?);
    let bytes = proved::check_packet(&packet, n, chunk, &root).map_err(|reason| refused(&named(file), reason))?;
    if let Some(out) = arguments.option("-o") {
        outputs::give(Some(out), bytes)?;
    }
    say(&format!("{}: chunk {chunk} of {n}, {}", named(file), counted(bytes.len() as u64, "byte")))
}

fn compare_packets(arguments: &Arguments, words: &[&OsStr]) -> Done<()> {
    let [first, second] = words[..] else { return usage("two packets' files are needed") };
    let (n, chunk, root) = against(arguments)?;
    let words = match proved::compare_packets(&packet_in(first)?, &packet_in(second)?, n, chunk, &root) {
        proved::Walked::SameChunk => {
            return say("the same chunk");
        }
        proved::Walked::CollisionAtRoots => "other chunks under one root hash: two root messages have one hash".into(),
        proved::Walked::CollisionAtIndex(index) => {
            format!("other chunks under one root hash: two messages have one hash, at tree index {index}")
        }
        proved::Walked::FirstRefused(reason) => format!("{}: {}", named(first), refusal(reason)),
        proved::Walked::SecondRefused(reason) => format!("{}: {}", named(second), refusal(reason)),
    };
    Err(Trouble::Refused(words))
}

/// `packet take`: the packet of a chunk is taken in, under a root hash, or where none is given under the archive's own.
fn take_packet(arguments: &Arguments, words: &[&OsStr]) -> Done<()> {
    let ([path, file], Some(chunk)) = (words, arguments.number("--number")?) else {
        return usage("an archive, a packet's file and --number are needed");
    };
    let packet = packet_in(file)?;
    let which = if arguments.has("--metadata") { Which::Metadata } else { Which::Content };
    arguments.for_writing()?;
    let archive = Archive::of(Folder::open(Path::new(path), Opening::writing(arguments)?)?)?;
    let folder = &archive.folder;
    let mut register = folder.to_write(which)?;
    let root = match arguments.root("--root")? {
        Some(root) => root,
        None => register.lent().root_hash().map_err(|reason| refused("--root is needed: the archive's own root hash", reason))?,
    };
    register.take_in(&packet, chunk, &root).map_err(|reason| refused(&named(file), reason))?;
    commit(folder, changes(folder, which, register.files())?, Room::Free)
}
