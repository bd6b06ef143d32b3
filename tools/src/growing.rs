//! `grow`: a copy becomes one for the archive as it is now, and keeps what it held. In memory a copy for more chunks is made, of which nothing is known; it
//! takes in a packet of a chunk under each root of the old chunks, and then every chunk that was held, by a packet that is made of the old copy's and of
//! these (splice.rs). Each stands under the new root hash then, and the root hash of the first chunks is held to the one that the copy had. The bytes of
//! the data stay where they are. All of it is one change.
use crate::arguments::Arguments;
use crate::chosen::{bridge, first_held};
use crate::counts::{used_sizes, Which, BITFIELD, BOTH, DATA, TREE};
use crate::folder::{unmade_copy, Folder, Opening};
use crate::image::Image;
use crate::inputs;
use crate::kept::{Kept, Lent};
use crate::outputs::report;
use crate::packet_file::About;
use crate::parcels::{committed, each, Opened};
use crate::parts::{self, Ended};
use crate::progress::Counter;
use crate::reading::{both, Archive};
use crate::sleep_register::{CopyStore, PACKET_EXTRA};
use crate::splice::{spliced, under_roots};
use crate::trusted::{given, needed};
use crate::walk::KEPT_PAGES_OF;
use crate::words::{at_file, counted, refused, usage, Done, Trouble};
use std::collections::BTreeSet;
use std::ffi::OsStr;
use std::ops::Range;
use std::path::Path;

/// After so many bytes that were held before, their pages are given up: they are as the file has them.
const AT_ONCE: u64 = 4 << 20;

const UNKNOWN: u64 = 20;
const BLOCK: usize = 4096;

/// `grow`.
pub fn grow(arguments: &Arguments) -> Done<()> {
    match (&arguments.words()[..], arguments.option("--of")) {
        ([copy], Some(archive)) if !arguments.has("--root") && !arguments.has("--with") => by_archive(arguments, copy, archive),
        ([copy, file], _) => by_file(arguments, copy, file),
        _ => usage("a copy and --of ARCHIVE are needed, or a copy, a file of packets, and --root, --of or --with"),
    }
}

/// A register of the copy that is to grow, and the old one.
struct Growing<'a> {
    which: Which,
    /// How it is named in messages.
    named: String,
    archive: &'a Archive,
    old: Lent<'a>,
    new: CopyStore<Image>,
    root: [u8; 32],
    /// The chunks under each old root, and the packet of one of them as it is now.
    under: Vec<(Range<u64>, Option<Vec<u8>>)>,
    taken: BTreeSet<u64>,
}

impl<'a> Growing<'a> {
    /// A copy for so many chunks and bytes, over the data that there is. The old register must be a copy.
    fn of(archive: &'a Archive, which: Which, counts: (u64, u64), root: [u8; 32]) -> Done<Growing<'a>> {
        let (old, named, (n, size)) = (archive.register(which), archive.named(which), counts);
        if n < old.n() || size < old.size() {
            let had = format!("{}, {}", counted(old.n(), "chunk"), counted(old.size(), "byte"));
            return Err(Trouble::Refused(format!(
                "{named}: it is for {had}, and what it is to follow has {}, {}: another archive, or an older one; nothing is changed",
                counted(n, "chunk"),
                counted(size, "byte")
            )));
        }
        let folder = &archive.folder;
        let mut new = unmade_copy(n, size).map_err(|error| at_file(&folder.path, error))?;
        new.make().map_err(|reason| refused(&named, reason))?;
        new.data = folder.image_to_write(which.first_file() + DATA, size)?;
        let under = under_roots(old.n()).into_iter().map(|under| (under, None)).collect();
        Ok(Growing { which, named, archive, old, new, root, under, taken: BTreeSet::new() })
    }

    /// Takes in a packet of the archive as it is now.
    fn take(&mut self, chunk: u64, packet: &[u8]) -> Done<()> {
        let trouble = |reason| refused(&format!("{}: the packet of chunk {chunk}, nothing is changed", self.named), reason);
        self.new.take_in(packet, chunk, &self.root).map_err(trouble)?;
        self.taken.insert(chunk);
        if let Some((_, bridge)) = self.under.iter_mut().find(|(under, bridge)| under.contains(&chunk) && bridge.is_none()) {
            *bridge = Some(packet.to_vec());
        }
        Ok(())
    }

    /// Holds the root hash of the first chunks to the one that the copy has. Where nothing was taken in there is none.
    fn follows(&self) -> Done<()> {
        let m = self.old.n();
        let was = match self.old.root_hash() {
            Err(reason) if reason.number == UNKNOWN => return Ok(()),
            root => root.map_err(|reason| refused(&self.named, reason))?,
        };
        let words = match self.new.copied().old_root(m) {
            Ok(root) if root == was => return Ok(()),
            Ok(_) => format!("the root hash of the first {} is another there than here: it is another archive", counted(m, "chunk")),
            Err(reason) if reason.number == UNKNOWN => format!(
                "a packet of a chunk under each root of the first {} is needed: `packets make --since` puts them into a file",
                counted(m, "chunk")
            ),
            Err(reason) => return Err(refused(&self.named, reason)),
        };
        Err(Trouble::Refused(format!("{}: {words}; nothing is changed", self.named)))
    }

    /// Takes in every chunk that the copy held, under the new root hash.
    fn keep(&mut self) -> Done<()> {
        let mut out = vec![0; inputs::LONGEST + PACKET_EXTRA];
        let held = held(&self.old).map_err(|reason| refused(&self.named, reason))?;
        let (mut counter, mut from) = (Counter::new("keeping chunks", held.len() as u64), 0);
        for (kept, chunk) in (1..).zip(held) {
            counter.next();
            if kept % KEPT_PAGES_OF == 0 {
                self.archive.give_up_pages();
            }
            if self.taken.contains(&chunk) {
                continue;
            }
            let trouble = |reason| refused(&format!("{}: chunk {chunk}, which is held, nothing is changed", self.named), reason);
            let length = self.old.make_packet(chunk, &mut out).map_err(trouble)?;
            let bridge = self.under.iter().find(|(under, _)| under.contains(&chunk)).and_then(|(_, bridge)| bridge.as_deref());
            let packet = bridge.and_then(|bridge| spliced(&out[..length], bridge)).ok_or_else(|| self.no_bridge(chunk))?;
            self.new.take_in(&packet, chunk, &self.root).map_err(trouble)?;
            let (start, _) = self.old.place(chunk).map_err(trouble)?;
            if start >= from + AT_ONCE {
                self.new.data.give_up_same(from as usize..start as usize).map_err(|error| at_file(Path::new(&self.named), error))?;
                from = start;
            }
        }
        Ok(())
    }

    fn no_bridge(&self, chunk: u64) -> Trouble {
        Trouble::Refused(format!(
            "{}: no packet leads from chunk {chunk}, which is held, to the new root hash; nothing is changed",
            self.named
        ))
    }

    /// Releases chunks that were taken in for their packets alone.
    fn let_go(&mut self, chunks: &[u64]) -> Done<()> {
        let named = &self.named;
        chunks.iter().try_for_each(|chunk| self.new.release(*chunk).map_err(|reason| refused(named, reason)))
    }

    /// The copy as it is to be, over the files that there are: it was audited.
    fn grown(self, arguments: &Arguments, folder: &Folder) -> Done<Kept> {
        let threads = parts::threads(arguments)?;
        match parts::audit("audit of the grown copy", &Lent::Copy(self.new.copied()), threads, 0) {
            Ended::Whole(audited) => {
                audited.map_err(|reason| refused(&format!("{}, as it would be; nothing is changed", self.named), reason))?
            }
            Ended::Stopped(_) => return Err(Trouble::Stopped("stopped; nothing is changed".into())),
        }
        let CopyStore { tree, bitfield, data, n, size } = self.new;
        let lengths = used_sizes(n, 0, size);
        let over = |kind: usize, image: Image| over(folder, self.which.first_file() + kind, &image, lengths[kind]);
        Ok(Kept::Copy(CopyStore { tree: over(TREE, tree)?, bitfield: over(BITFIELD, bitfield)?, data, n, size }))
    }
}

/// A file's image with other bytes in it, written where they differ.
fn over(folder: &Folder, number: usize, bytes: &Image, length: u64) -> Done<Image> {
    let mut image = folder.image_to_write(number, length)?;
    let (new, length) = (bytes.as_ref(), length as usize);
    for at in (0..length).step_by(BLOCK) {
        let end = length.min(at + BLOCK);
        if image.as_ref()[at..end] != new[at..end] {
            image.as_mut()[at..end].copy_from_slice(&new[at..end]);
        }
    }
    Ok(image)
}

/// Whether nothing was taken in: no root is known.
fn is_fresh(register: &Lent) -> bool {
    register.root_hash().is_err_and(|reason| reason.number == UNKNOWN)
}

/// The chunks that are held, rising; none where no root is known.
fn held(register: &Lent) -> Result<Vec<u64>, crate::sleep_register::Refusal> {
    let (mut held, mut from) = (Vec::new(), 0);
    if is_fresh(register) {
        return Ok(held);
    }
    while let Some(missing) = register.search(from)? {
        held.extend(from..missing);
        from = missing + 1;
    }
    held.extend(from..register.n());
    Ok(held)
}

/// The registers of an archive that are copies.
fn copies(archive: &Archive) -> Done<Vec<Which>> {
    let copies = BOTH.into_iter().filter(|which| matches!(archive.register(*which), Lent::Copy(_))).collect::<Vec<_>>();
    match copies.is_empty() {
        true => Err(Trouble::Refused(format!("{}: it is no partial copy: `add` makes it grow", archive.folder.path.display()))),
        false => Ok(copies),
    }
}

/// `grow --of`: after another archive, from which all packets come.
fn by_archive(arguments: &Arguments, copy: &OsStr, other: &OsStr) -> Done<()> {
    let writing = Opening::writing(arguments)?;
    let (archive, Some(other)) = both(copy, other, [writing, writing.to_read()])? else {
        return usage("--of is another archive");
    };
    let mut kept = [None, None];
    for which in copies(&archive)? {
        let register = other.register(which);
        let root = register.root_hash().map_err(|reason| other.trouble(which, reason))?;
        let mut growing = Growing::of(&archive, which, (register.n(), register.size()), root)?;
        let surplus = bridges(&mut growing, &other, &register)?;
        growing.follows()?;
        growing.keep()?;
        growing.let_go(&surplus)?;
        [&archive, &other].iter().for_each(|archive| archive.give_up_pages());
        kept[which as usize] = Some(growing.grown(arguments, &archive.folder)?);
    }
    ended(&archive, &kept)
}

/// Takes in a chunk under each old root, one that the copy holds where there is one, and of metadata the records behind them: what finding names takes.
/// The chunks that the copy did not hold. Of a copy that knows nothing yet nothing is taken in.
fn bridges(growing: &mut Growing, other: &Archive, register: &Lent) -> Done<Vec<u64>> {
    let (which, old, mut surplus) = (growing.which, growing.old, Vec::new());
    if is_fresh(&old) {
        return Ok(surplus);
    }
    let (held, mut chunks) = (held(&old).map_err(|reason| refused(&growing.named, reason))?, BTreeSet::new());
    let is_there = |chunk: &u64| first_held(register, *chunk..chunk + 1).is_ok_and(|held| held.is_some());
    for under in under_roots(old.n()) {
        let own = &held[held.partition_point(|chunk| *chunk < under.start)..held.partition_point(|chunk| *chunk < under.end)];
        match own.iter().find(|chunk| is_there(chunk)) {
            Some(chunk) => chunks.insert(*chunk),
            None => {
                surplus.push(bridge(other, which, register, under)?);
                chunks.insert(surplus[surplus.len() - 1])
            }
        };
    }
    if which == Which::Metadata {
        chunks.extend((old.n()..register.n()).filter(is_there));
    }
    each(other, which, register, &mut chunks.into_iter(), &mut |chunk, packet| growing.take(chunk, packet))?;
    Ok(surplus)
}

/// `grow` by a file of packets, which are all taken in.
fn by_file(arguments: &Arguments, copy: &OsStr, file: &OsStr) -> Done<()> {
    let mut file = Opened::of(file)?;
    let given = given(arguments, file.registers())?;
    let archive = Archive::of(Folder::open(Path::new(copy), Opening::writing(arguments)?)?)?;
    let mut all = [None, None];
    for which in copies(&archive)? {
        let About { n, size, .. } = file.registers()[which as usize];
        let root = given.and_then(|roots| roots[which as usize]);
        let root = root.ok_or_else(|| needed(file.registers(), "what is taken in stands under a new root hash"))?;
        all[which as usize] = Some(Growing::of(&archive, which, (n, size), root)?);
    }
    while let Some((which, chunk, packet)) = file.next()? {
        if let Some(growing) = &mut all[which as usize] {
            growing.take(chunk, packet)?;
        }
    }
    let mut kept = [None, None];
    for mut growing in all.into_iter().flatten() {
        growing.follows()?;
        growing.keep()?;
        let which = growing.which;
        kept[which as usize] = Some(growing.grown(arguments, &archive.folder)?);
    }
    ended(&archive, &kept)
}

/// Writes both registers together, and says what they are now.
fn ended(archive: &Archive, kept: &[Option<Kept>; 2]) -> Done<()> {
    committed(&archive.folder, kept)?;
    for which in BOTH {
        if let Some(kept) = &kept[which as usize] {
            let (old, new) = (archive.register(which).n(), kept.lent().n());
            report(&format!("{}: a copy for {}, {} more", which.name(), counted(new, "chunk"), new - old))?;
        }
    }
    Ok(())
}
