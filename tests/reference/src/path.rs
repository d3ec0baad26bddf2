//! Paths: `/` and one or more names with `/` between.

use crate::layout::*;
use crate::Refusal;

/// What a call wants at the end of a path.
#[derive(Clone, Copy, Debug, PartialEq, Eq)]
pub enum Want {
    File,
    Directory,
}

/// The names of a path, if it is one.
pub fn parts(path: &[u8]) -> Option<Vec<&[u8]>> {
    let names = path.strip_prefix(b"/")?;
    let names: Vec<&[u8]> = names.split(|&b| b == b'/').collect();
    names.iter().all(|name| is_good_name(name)).then_some(names)
}

/// Where a path leads: names of directories from the root on, and a last name.
#[derive(Clone, Debug, PartialEq, Eq)]
pub struct Place<'a> {
    pub directories: Vec<&'a [u8]>,
    pub name: &'a [u8],
}

/// Cuts a path. Weighs 9, for the path and for what else the call brings, and
/// then 17: more than 8 directories, where in a call for a directory the last
/// part counts.
pub fn place(path: &[u8], want: Want, others_good: bool) -> Result<Place<'_>, Refusal> {
    let mut directories = parts(path).filter(|_| others_good).ok_or(9u32)?;
    let named = directories.len() - usize::from(want == Want::File);
    if named > MAX_LEVELS {
        return Err(17);
    }
    let name = directories.pop().expect("a path has a name");
    Ok(Place { directories, name })
}

impl Place<'_> {
    /// The first block of the directory that holds the last name, or 10.
    pub fn home(&self, image: &[u8]) -> Result<usize, Refusal> {
        walk(image, root_block(block_count(image)), &self.directories)
    }

    /// The entry at the path's end, or 10 if there is none or not what is wanted.
    pub fn find(&self, image: &[u8], want: Want) -> Result<Entry, Refusal> {
        let found = named(image, self.home(image)?, self.name).ok_or(10u32)?;
        if found.is_directory() == (want == Want::Directory) {
            Ok(found)
        } else {
            Err(10)
        }
    }
}

/// Goes from a directory down, one part at a time; 10 at a file or a missing
/// part.
pub(crate) fn walk(image: &[u8], from: usize, names: &[&[u8]]) -> Result<usize, Refusal> {
    match names {
        [] => Ok(from),
        [name, rest @ ..] => match named(image, from, name) {
            Some(entry) if entry.is_directory() => walk(image, entry.first as usize, rest),
            _ => Err(10),
        },
    }
}

/// The entry of a name in a directory.
pub fn named(image: &[u8], directory: usize, name: &[u8]) -> Option<Entry> {
    entries(image, directory).into_iter().find(|entry| entry.name == name)
}
