//! `hold`: runs a command while the archive stands still.
use crate::arguments::Arguments;
use crate::folder::{Folder, Opening};
use crate::left_over::NAME;
use crate::lock::{kept_for_others, HELD};
use crate::words::{at_file, remark, said, usage, Done, Trouble};
use std::os::unix::process::CommandExt;
use std::path::Path;
use std::process::Command;

/// `hold`: this process becomes the command, with the lock of a reader: others read meanwhile, and nobody writes, until the command has ended and all that
/// it left running. So the lock ends with the command, however that ends.
pub fn hold(arguments: &Arguments) -> Done<()> {
    let words = arguments.words();
    let [path, command, rest @ ..] = &words[..] else { return usage("an archive and a command are needed") };
    let path = Path::new(path);
    let folder = Folder::open(path, Opening::writing(arguments)?.to_read().past_journal())?;
    if folder.plain(0)?.is_none() && !folder.is_used()? {
        return Err(Trouble::File(format!("{}: no archive: metadata.tree is missing", path.display())));
    }
    if folder.is_unfinished()? {
        remark(&format!(
            "sleep-archive: {}: a change is unfinished in {NAME}, which belongs to the files: a copy needs it too",
            path.display()
        ));
    }
    let held = [folder.lock.work.as_ref(), folder.lock.work.is_some().then_some(&folder.handle)].into_iter().flatten().collect::<Vec<_>>();
    let mut numbers = kept_for_others(&held).map_err(|error| at_file(path, error))?;
    numbers.extend(std::env::var(HELD).ok());
    let error = Command::new(command).args(rest).env(HELD, numbers.join(",")).exec();
    Err(Trouble::File(format!("{}: {}", Path::new(command).display(), said(&error))))
}
