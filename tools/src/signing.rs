//! `sign`: the root hashes whose signatures are owed, and signatures that are stored.
use crate::arguments::Arguments;
use crate::changes::changes;
use crate::commit::{commit, Room};
use crate::counts::{used_sizes, Which};
use crate::folder::{Folder, Opening};
use crate::inputs;
use crate::kept::{Kept, Lent};
use crate::outputs::say;
use crate::reading::only;
use crate::signer::made_by;
use crate::words::{hex, refused, remark, usage, Done, Trouble};
use std::path::Path;

/// Root hashes whose signatures are owed.
fn owed(folder: &Folder) -> Done<Vec<(Which, [u8; 32])>> {
    let (metadata, content) = (folder.to_read(Which::Metadata)?, folder.to_read(Which::Content)?);
    let mut owed = Vec::new();
    for (which, images) in [(Which::Metadata, metadata), (Which::Content, content)] {
        let Lent::Whole(register) = images.lent() else { continue };
        let root = register.root_hash().map_err(|reason| refused(which.name(), reason))?;
        if register.s < register.n {
            owed.push((which, root));
        }
    }
    Ok(owed)
}

/// `sign`: prints the root hashes whose signatures are owed, or stores the signatures.
pub fn sign(arguments: &Arguments) -> Done<()> {
    let path = Path::new(only(&arguments.words(), "an archive")?);
    let opening = Opening::writing(arguments)?;
    let owed = owed(&Folder::open(path, opening.to_read())?)?;
    let mut signatures = Vec::new();
    for (which, option) in [(Which::Metadata, "--metadata"), (Which::Content, "--content")] {
        if let Some(file) = arguments.option(option) {
            signatures.push((which, inputs::exactly::<64>(Path::new(file))?));
        }
    }
    match (arguments.option("--with"), signatures.is_empty()) {
        (None, true) => {
            for (which, root) in &owed {
                say(&format!("{} {}", which.name(), hex(root)))?;
            }
            if owed.is_empty() {
                remark(&format!("{}: no signature is owed", path.display()));
            }
            Ok(())
        }
        (None, false) => store(path, opening, &signatures, &owed),
        (Some(_), false) => usage("--with is instead of --metadata and --content"),
        (Some(_), true) if owed.is_empty() => {
            remark(&format!("{}: no signature is owed", path.display()));
            Ok(())
        }
        (Some(command), true) => {
            for (which, root) in &owed {
                signatures.push((*which, made_by(command, *which, root)?));
            }
            store(path, opening, &signatures, &owed)
        }
    }
}

/// Stores signatures in both registers together, if the root hashes are still those that were signed.
fn store(path: &Path, opening: Opening, signatures: &[(Which, [u8; 64])], signed: &[(Which, [u8; 32])]) -> Done<()> {
    let folder = Folder::open(path, opening)?;
    if owed(&folder)? != signed {
        return Err(Trouble::Refused(format!("{}: it was changed meanwhile; nothing is stored", path.display())));
    }
    let mut stores = Vec::new();
    for (which, signature) in signatures {
        let counts = folder.count(*which)?;
        let mut store = folder.to_grow(*which, counts, used_sizes(counts.n, counts.s.unwrap_or(0) + 1, counts.size))?;
        store.store_signature(signature).map_err(|reason| refused(which.name(), reason))?;
        stores.push((*which, Kept::Whole(store)));
    }
    let mut all = Vec::new();
    for (which, store) in &stores {
        all.extend(changes(&folder, *which, store.files())?);
    }
    commit(&folder, all, Room::Free)
}
