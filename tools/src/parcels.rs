//! `packets`: many packets in one file, made of pieces by their names, with their records; taken in by one command; shown.
use crate::arguments::Arguments;
use crate::changes::changes;
use crate::chosen::{bridged, chosen, names, Chunks};
use crate::commit::{commit, Room};
use crate::counts::{Which, BOTH};
use crate::folder::{Folder, Opening};
use crate::inputs;
use crate::kept::{Kept, Lent};
use crate::outputs::{self, report, say, Sink};
use crate::packet_file::{before, head, About, Packets, Unread};
use crate::printable::shown;
use crate::progress::Counter;
use crate::reading::{only, Archive};
use crate::sleep_register::PACKET_EXTRA;
use crate::trusted::{given, needed, Roots};
use crate::verify::stored;
use crate::walk::KEPT_PAGES_OF;
use crate::words::{at_file, counted, hex, refused, usage, Done, Trouble};
use std::ffi::OsStr;
use std::fs::File;
use std::io::{self, BufReader, Read};
use std::path::Path;

/// `packets`.
pub fn packets(arguments: &Arguments) -> Done<()> {
    let words = arguments.words();
    let kinds = "packets make, packets take or packets show";
    let Some((kind, words)) = words.split_first() else { return usage(kinds) };
    match kind.as_encoded_bytes() {
        b"make" => make(arguments, words),
        b"take" => take(arguments, words),
        b"show" => show(only(words, "a file of packets")?),
        _ => usage(kinds),
    }
}

/// `packets make`.
fn make(arguments: &Arguments, words: &[&OsStr]) -> Done<()> {
    let (since, first) = (arguments.pair("--since")?, arguments.pair("--first")?);
    let Some((path, pieces)) = words.split_first().filter(|(_, pieces)| since.is_some() || !pieces.is_empty()) else {
        return usage("an archive and names are needed, or an archive and --since METADATA,CONTENT");
    };
    let names = names(pieces)?;
    let archive = Archive::open(path, Opening::reading(arguments)?)?;
    let firsts = firsts(&archive, first)?;
    let mut chunks = if names.is_empty() { Chunks::default() } else { chosen(&archive, &firsts, &names)? };
    if let Some((metadata, content)) = since {
        for (which, m) in BOTH.into_iter().zip([metadata, content]) {
            bridged(&archive, which, &firsts[which as usize], m, &mut chunks[which as usize])?;
        }
    }
    outputs::give_by(arguments.option("-o"), &mut |sink| fill(&archive, &firsts, &chunks, sink))
}

/// Both registers, or their first chunks.
fn firsts(archive: &Archive, first: Option<(u64, u64)>) -> Done<[Lent<'_>; 2]> {
    let of = |which: Which, m: Option<u64>| {
        let register = archive.register(which);
        register.first(m.unwrap_or(register.n())).map_err(|reason| archive.trouble(which, reason))
    };
    Ok([of(Which::Metadata, first.map(|both| both.0))?, of(Which::Content, first.map(|both| both.1))?])
}

/// What a file says of a register.
fn about(archive: &Archive, which: Which, register: &Lent, count: usize) -> Done<About> {
    let root = register.root_hash().map_err(|reason| archive.trouble(which, reason))?;
    let signature = match register {
        Lent::Whole(whole) if whole.n > 0 && whole.s >= whole.n => *stored(whole, whole.n - 1),
        _ => [0; 64],
    };
    Ok(About { n: register.n(), size: register.size(), root, signature, count: count as u64 })
}

/// Puts the packets of these chunks into a file.
fn fill(archive: &Archive, registers: &[Lent; 2], chunks: &Chunks, sink: &mut Sink) -> Done<()> {
    let about = |which: Which| about(archive, which, &registers[which as usize], chunks[which as usize].len());
    sink.put(&head(&[about(Which::Metadata)?, about(Which::Content)?]))?;
    let mut counter = Counter::new("making packets", (chunks[0].len() + chunks[1].len()) as u64);
    for which in BOTH {
        each(archive, which, &registers[which as usize], &mut chunks[which as usize].iter().copied(), &mut |chunk, packet| {
            counter.next();
            sink.put(&before(chunk, packet.len()))?;
            sink.put(packet)
        })?;
    }
    Ok(())
}

/// Makes the packets of chunks, one after the other.
pub fn each(
    archive: &Archive,
    which: Which,
    register: &Lent,
    chunks: &mut dyn Iterator<Item = u64>,
    put: &mut dyn FnMut(u64, &[u8]) -> Done<()>,
) -> Done<()> {
    let mut out = vec![0; inputs::LONGEST + PACKET_EXTRA];
    for (made, chunk) in (1..).zip(chunks) {
        if made % KEPT_PAGES_OF == 0 {
            archive.give_up_pages();
        }
        let made = register.make_packet(chunk, &mut out);
        let length = made.map_err(|reason| refused(&format!("{}: chunk {chunk}", archive.named(which)), reason))?;
        put(chunk, &out[..length])?;
    }
    Ok(())
}

/// A file of packets; `-` is standard input.
pub struct Opened {
    file: Packets<Box<dyn Read>>,
    name: String,
}

impl Opened {
    pub fn of(path: &OsStr) -> Done<Opened> {
        let name = if path == "-" { "standard input".into() } else { shown(path.as_encoded_bytes()) };
        let from: Box<dyn Read> = match path == "-" {
            true => Box::new(io::stdin().lock()),
            false => Box::new(BufReader::with_capacity(1 << 16, opened(Path::new(path))?)),
        };
        let file = Packets::of(from).map_err(|unread| unreadable(&name, unread))?;
        Ok(Opened { file, name })
    }

    pub fn registers(&self) -> &[About; 2] {
        &self.file.registers
    }

    pub fn name(&self) -> &str {
        &self.name
    }

    pub fn next(&mut self) -> Done<Option<(Which, u64, &[u8])>> {
        self.file.next().map_err(|unread| unreadable(&self.name, unread))
    }
}

fn opened(path: &Path) -> Done<File> {
    let file = File::open(path).map_err(|error| at_file(path, error))?;
    match file.metadata() {
        Ok(about) if about.is_dir() => Err(Trouble::File(format!("{}: a folder, and no file", path.display()))),
        Ok(_) => Ok(file),
        Err(error) => Err(at_file(path, error)),
    }
}

fn unreadable(name: &str, unread: Unread) -> Trouble {
    match unread {
        Unread::File(error) => at_file(Path::new(name), error),
        Unread::Wrong(words) => Trouble::Refused(format!("{name}: {words}; nothing is changed")),
    }
}

/// `packets show`: what the file says, and that it is the file alone that says it.
fn show(path: &OsStr) -> Done<()> {
    let mut file = Opened::of(path)?;
    let mut chunks = [Vec::new(), Vec::new()];
    while let Some((which, chunk, _)) = file.next()? {
        chunks[which as usize].push(chunk);
    }
    for (which, chunks) in BOTH.iter().zip(&chunks) {
        let About { n, size, root, .. } = &file.registers()[*which as usize];
        let signed = if file.registers()[*which as usize].is_signed() { "with a signature" } else { "without a signature" };
        let (name, of) = (which.name(), format!("{}, {}", counted(*n, "chunk"), counted(*size, "byte")));
        say(&format!("{name}: {} of {of}{}", counted(chunks.len() as u64, "packet"), in_ranges(chunks)))?;
        say(&format!("{name}: root hash {}, {signed}", hex(root)))?;
    }
    say("what the file says, and nobody has checked")
}

/// Numbers that rise, in ranges.
fn in_ranges(chunks: &[u64]) -> String {
    let mut ranges: Vec<(u64, u64)> = Vec::new();
    for chunk in chunks {
        match ranges.last_mut() {
            Some(last) if last.1 + 1 == *chunk => last.1 = *chunk,
            _ => ranges.push((*chunk, *chunk)),
        }
    }
    let range = |(from, to): &(u64, u64)| if from == to { from.to_string() } else { format!("{from}-{to}") };
    match ranges.is_empty() {
        true => String::new(),
        false => format!(": {}", ranges.iter().map(range).collect::<Vec<_>>().join(" ")),
    }
}

/// `packets take`: all of a file, or nothing.
fn take(arguments: &Arguments, words: &[&OsStr]) -> Done<()> {
    let [path, file] = words else { return usage("an archive and a file of packets are needed") };
    arguments.for_writing()?;
    let mut file = Opened::of(file)?;
    let given = given(arguments, file.registers())?;
    let folder = Folder::open(Path::new(path), Opening::writing(arguments)?)?;
    let archive = Archive::of(folder)?;
    let mut kept = [None, None];
    for which in BOTH.into_iter().filter(|which| file.registers()[*which as usize].count > 0) {
        fits(&archive, which, &file.registers()[which as usize])?;
        kept[which as usize] = Some(archive.folder.to_write(which)?);
    }
    let roots = roots(&archive, &file, given)?;
    let total = file.registers().iter().map(|about| about.count).sum();
    let (name, mut counter) = (file.name().to_string(), Counter::new("taking packets in", total));
    while let Some((which, chunk, packet)) = file.next()? {
        counter.next();
        let (register, root) = (kept[which as usize].as_mut().expect("opened"), roots[which as usize].expect("known"));
        let taken = register.take_in(packet, chunk, &root);
        taken.map_err(|reason| refused(&format!("{name}: the packet of chunk {chunk} of {}, nothing is changed", which.name()), reason))?;
    }
    drop(counter);
    committed(&archive.folder, &kept)?;
    report(&format!("{}: {} taken in", archive.folder.path.display(), counted(total, "packet")))
}

/// The root hash of each register that the file has packets of.
fn roots(archive: &Archive, file: &Opened, given: Option<Roots>) -> Done<Roots> {
    let mut roots = given.unwrap_or_default();
    for which in BOTH.into_iter().filter(|which| file.registers()[*which as usize].count > 0) {
        let root = &mut roots[which as usize];
        if root.is_none() {
            let why = format!("{} knows no root hash yet", archive.named(which));
            *root = Some(archive.register(which).root_hash().map_err(|_| needed(file.registers(), &why))?);
        }
    }
    Ok(roots)
}

/// Holds that a file is of so many chunks and bytes as a register.
fn fits(archive: &Archive, which: Which, about: &About) -> Done<()> {
    let (register, named) = (archive.register(which), archive.named(which));
    let (n, size) = (register.n(), register.size());
    let why = match (about.n, about.size) {
        same if same == (n, size) => return Ok(()),
        (more, _) if more > n && matches!(register, Lent::Copy(_)) => {
            format!("the file is of {more} chunks, and this is a copy for {n}: `grow` makes it one for {more}")
        }
        (other, _) if other != n => format!("the file is of {other} chunks, and here are {n}: one made with --first is of fewer"),
        (_, other) => format!("the file is of {other} bytes, and here are {size}: it is another archive's"),
    };
    Err(Trouble::Refused(format!("{named}: {why}; nothing is changed")))
}

/// All that was changed in both registers, together.
pub fn committed(folder: &Folder, kept: &[Option<Kept>; 2]) -> Done<()> {
    let mut all = Vec::new();
    for which in BOTH {
        if let Some(kept) = &kept[which as usize] {
            all.extend(changes(folder, which, kept.files())?);
        }
    }
    commit(folder, all, Room::Free)
}

#[cfg(test)]
mod tests {
    use super::*;

    #[test]
    fn numbers_in_ranges() {
        assert_eq!(in_ranges(&[]), "");
        assert_eq!(in_ranges(&[0]), ": 0");
        assert_eq!(in_ranges(&[0, 1, 2, 5, 7, 8]), ": 0-2 5 7-8");
    }
}
