//! A register as a folder has it: whole, or, without a signatures file, a partial copy. Each has calls of its own, and most of them go by the same name.
use crate::counts::{root_entries, used_sizes, BITFIELD, DATA, SIGNATURES, TREE};
use crate::image::Image;
pub use crate::sleep_register::Lent;
use crate::sleep_register::{Copied, CopyStore, Place, Refusal, Register, Store};
use crate::words::{Done, Trouble};

impl<'a> Lent<'a> {
    pub fn n(&self) -> u64 {
        match self {
            Lent::Whole(lent) => lent.n,
            Lent::Copy(lent) => lent.n,
        }
    }

    pub fn size(&self) -> u64 {
        match self {
            Lent::Whole(lent) => lent.size,
            Lent::Copy(lent) => lent.size,
        }
    }

    pub fn tree(&self) -> &'a [u8] {
        match self {
            Lent::Whole(lent) => lent.tree,
            Lent::Copy(lent) => lent.tree,
        }
    }

    /// The register, where it is whole: what is not for copies.
    pub fn whole(self, what: &str) -> Done<Register<'a>> {
        match self {
            Lent::Whole(lent) => Ok(lent),
            Lent::Copy(_) => Err(only_whole(what)),
        }
    }

    /// The register as it was when it had m chunks: the same files, told m and the size that those chunks have, the lengths of m's roots together. A packet
    /// made of it is the very one that a register of the first m chunks gives (crates/theorem_packet_prefix).
    pub fn first(&self, m: u64) -> Result<Lent<'a>, Refusal> {
        if m == self.n() {
            return self.root_hash().map(|_| *self);
        }
        self.old_root(m)?;
        let length = |at: u64| u64::from_be_bytes(self.tree()[at as usize + 32..at as usize + 40].try_into().expect("8 bytes"));
        let size = root_entries(m).into_iter().try_fold(0, |size: u64, at| size.checked_add(length(at)));
        let size = size.filter(|size| *size <= self.size()).ok_or(Refusal { number: 6, place: Place::None })?;
        Ok(match *self {
            Lent::Whole(lent) => Lent::Whole(Register { n: m, s: m, size, ..lent }),
            Lent::Copy(lent) => Lent::Copy(Copied { n: m, size, ..lent }),
        })
    }

    /// Bytes that a call may look at.
    pub fn bytes(&self) -> u64 {
        let (tree, bitfield, data) = match self {
            Lent::Whole(Register { tree, bitfield, data, .. }) | Lent::Copy(Copied { tree, bitfield, data, .. }) => (tree, bitfield, data),
        };
        (tree.len() + bitfield.len() + data.len()) as u64
    }
}

/// What is said where a copy is met by something that is not for copies.
pub fn only_whole(what: &str) -> Trouble {
    Trouble::Refused(format!("{what}: a partial copy, which has no signatures file: it is not added to, signed or compared"))
}

/// Images of files.
pub enum Kept {
    Whole(Store<Image>),
    Copy(CopyStore<Image>),
}

/// One file's image: its kind among the four of a register, and how long the file is to be.
pub type Filed<'a> = (usize, &'a Image, u64);

impl Kept {
    pub fn lent(&self) -> Lent<'_> {
        match self {
            Kept::Whole(store) => Lent::Whole(store.register()),
            Kept::Copy(store) => Lent::Copy(store.copied()),
        }
    }

    pub fn release(&mut self, chunk: u64) -> Result<(), Refusal> {
        match self {
            Kept::Whole(store) => store.release(chunk),
            Kept::Copy(store) => store.release(chunk),
        }
    }

    /// The packet of a chunk, under a root hash.
    pub fn take_in(&mut self, packet: &[u8], chunk: u64, root: &[u8; 32]) -> Result<(), Refusal> {
        match self {
            Kept::Whole(store) => store.take_back(packet, chunk, root),
            Kept::Copy(store) => store.take_in(packet, chunk, root),
        }
    }

    pub fn files(&self) -> Vec<Filed<'_>> {
        match self {
            Kept::Whole(store) => whole_files(store),
            Kept::Copy(CopyStore { tree, bitfield, data, n, size }) => {
                let lengths = used_sizes(*n, 0, *size);
                [(TREE, tree), (BITFIELD, bitfield), (DATA, data)].into_iter().map(|(kind, image)| (kind, image, lengths[kind])).collect()
            }
        }
    }
}

/// The files of a whole register.
pub fn whole_files(store: &Store<Image>) -> Vec<Filed<'_>> {
    let Store { tree, signatures, bitfield, data, n, s, size } = store;
    let images = [tree, signatures, bitfield, data].into_iter().zip(used_sizes(*n, *s, *size));
    images.enumerate().map(|(kind, (image, length))| (kind, image, length)).collect()
}

/// The kinds of files that a register has, or a copy of one.
pub fn kinds(whole: bool) -> &'static [usize] {
    if whole {
        &[TREE, SIGNATURES, BITFIELD, DATA]
    } else {
        &[TREE, BITFIELD, DATA]
    }
}
