//! Names of an archive as paths below a folder: each part is one that a folder's entry can have.
use std::collections::{HashMap, HashSet};

/// The parts of a name that can be a path below a folder, or why it can't.
pub fn parts(name: &[u8]) -> Result<Vec<&[u8]>, &'static str> {
    let Some(path) = name.strip_prefix(b"/") else { return Err("it begins with no slash") };
    if name.contains(&0) {
        return Err("it has a zero byte");
    }
    let parts = path.split(|byte| *byte == b'/').collect::<Vec<_>>();
    match parts.iter().copied().find(|part| part.is_empty() || matches!(*part, b"." | b"..")) {
        Some(b".") => Err("a part of it is `.`"),
        Some(b"..") => Err("a part of it is `..`"),
        Some(_) => Err("a part of it is empty"),
        None => Ok(parts),
    }
}

/// The folders that names lie in, each by its path: of `/a/b/c` these are `/a` and `/a/b`.
pub fn folders_of(name: &[u8]) -> impl Iterator<Item = &[u8]> {
    name.iter().enumerate().skip(1).filter(|(_, byte)| **byte == b'/').map(|(at, _)| &name[..at])
}

/// What names of the user's stand for: pieces, or all pieces of a folder.
pub struct Asked<'a> {
    /// Each with whether it was found as a piece.
    pieces: HashMap<&'a [u8], bool>,
    /// How many were not.
    left: usize,
    /// Folders for sure, since a slash stands at their end.
    folders: HashSet<&'a [u8]>,
}

impl<'a> Asked<'a> {
    pub fn new(names: &[&'a [u8]]) -> Asked<'a> {
        let (mut pieces, mut folders) = (HashMap::new(), HashSet::new());
        for name in names {
            match name.strip_suffix(b"/") {
                Some(folder) => drop(folders.insert(folder)),
                None => drop(pieces.insert(*name, false)),
            }
        }
        Asked { left: pieces.len(), pieces, folders }
    }

    /// Whether a name is asked for, or may be as long as it is not known which names are pieces.
    pub fn wants(&mut self, name: &[u8]) -> bool {
        if let Some(found) = self.pieces.get_mut(name) {
            self.left -= usize::from(!std::mem::replace(found, true));
            return true;
        }
        self.folders.contains(&b""[..]) || folders_of(name).any(|folder| self.folders.contains(folder) || self.pieces.contains_key(folder))
    }

    /// Whether all that is asked for is found, so that no more can be: there are pieces alone.
    pub fn is_done(&self) -> bool {
        self.folders.is_empty() && self.left == 0
    }

    /// Whether a name that was wanted is asked for, when it is known which are pieces. A folder is what is no piece.
    pub fn has(&self, name: &[u8]) -> bool {
        let folder = |folder: &[u8]| self.folders.contains(folder) || self.pieces.get(folder) == Some(&false);
        self.pieces.contains_key(name) || self.folders.contains(&b""[..]) || folders_of(name).any(folder)
    }
}

#[cfg(test)]
mod tests {
    use super::*;

    #[test]
    fn names_stay_below_a_folder() {
        assert_eq!(parts(b"/coat/sleeve"), Ok(vec![&b"coat"[..], b"sleeve"]));
        assert_eq!(parts(b"/..."), Ok(vec![&b"..."[..]]));
        for wrong in [&b"coat"[..], b"/", b"//a", b"/a//b", b"/a/", b"/./a", b"/a/..", b"/../a", b"/a\0b", b""] {
            assert!(parts(wrong).is_err());
        }
    }

    #[test]
    fn pieces_and_folders() {
        assert_eq!(folders_of(b"/a/b/c").collect::<Vec<_>>(), [&b"/a"[..], b"/a/b"]);
        assert_eq!(folders_of(b"/a").count(), 0);
        let mut asked = Asked::new(&[b"/a", b"/b", b"/c/"]);
        let names: [&[u8]; 8] = [b"/a", b"/a/1", b"/b/2", b"/b/2/3", b"/c", b"/c/4", b"/d", b"/ab"];
        assert_eq!(names.map(|name| asked.wants(name)), [true, true, true, true, false, true, false, false]);
        assert!(!asked.is_done());
        assert_eq!(names.map(|name| asked.has(name)), [true, false, true, true, false, true, false, false]);
        let mut all = Asked::new(&[b"/"]);
        assert!(all.wants(b"/x") && all.has(b"/x/y"));
        let mut one = Asked::new(&[b"/a"]);
        assert!(!one.is_done() && one.wants(b"/a") && one.is_done());
    }
}
