//! A volume and its state: the image mapped from its file, the state record in a file of its own beside it.

use crate::explain;
use crate::failure::{Failure, IO, NO_INPUT, TRY_AGAIN};
use crate::files::{self, apart, Access, Argument, Content, Opened, IMAGE_LIMIT};
use crate::save::{self, Present};
use crate::sys::{self, Lock, Mapping};
use minnow::{StateRecord, BLOCK};
use std::ffi::{OsStr, OsString};
use std::fs::{self, File, Metadata};
use std::ops::Range;
use std::os::unix::ffi::OsStrExt;
use std::path::{Path, PathBuf};

pub struct Volume {
    opened: Opened,
    map: Mapping,
}

impl Volume {
    /// For an apply: nobody else may move blocks, or look at them, while this one lives.
    pub fn to_change(path: &Path) -> Result<Volume, Failure> {
        let opened = locked(path, Access::Change, Lock::Exclusive)?;
        let map = Mapping::shared(&opened.file, mapped(opened.size));
        Volume::new(opened, map)
    }

    /// For a look at its blocks: no apply may move them meanwhile.
    pub fn to_look_at(path: &Path) -> Result<Volume, Failure> {
        let opened = locked(path, Access::Read, Lock::Shared)?;
        let map = Mapping::private(&opened.file, mapped(opened.size));
        Volume::new(opened, map)
    }

    /// For a decision, which looks at the length and at no block: no lock, so that an apply under way does not matter.
    pub fn to_measure(path: &Path) -> Result<Volume, Failure> {
        let opened = files::open(path, Access::Read)?;
        let map = Mapping::private(&opened.file, mapped(opened.size));
        Volume::new(opened, map)
    }

    fn new(opened: Opened, map: std::io::Result<Mapping>) -> Result<Volume, Failure> {
        let map = map.map_err(|error| Failure::input(&opened.path, "cannot map", &error))?;
        Ok(Volume { opened, map })
    }

    pub fn name(&self) -> &str {
        &self.opened.name
    }

    pub fn path(&self) -> &Path {
        &self.opened.path
    }

    /// Bytes of the whole file.
    pub fn size(&self) -> u64 {
        self.opened.size
    }

    pub fn blocks(&self) -> u64 {
        self.opened.size / BLOCK as u64
    }

    /// The image, or a little more than the longest one if the file is longer.
    pub fn image(&self) -> &[u8] {
        self.map.bytes()
    }

    pub fn image_mut(&mut self) -> &mut [u8] {
        self.map.bytes_mut()
    }

    pub fn is(&self) -> Argument<'_> {
        ("volume", self.name(), self.opened.identity)
    }

    /// Sets room aside for every block that a sound diff names, so that a full disk shows before the first byte moves.
    pub fn reserve(&self, diff: &Content) -> Result<(), Failure> {
        for bytes in stretches(&diff.bytes, self.map.bytes().len()) {
            match sys::allocate(&self.opened.file, &bytes) {
                Err(error)
                    if matches!(error.raw_os_error(), Some(sys::EOPNOTSUPP | sys::ENOSYS)) =>
                {
                    return Ok(());
                }
                answer => answer
                    .map_err(|error| Failure::output(self.path(), "no room set aside", &error))?,
            }
        }
        Ok(())
    }

    /// Waits until every moved block is on the disk.
    pub fn flush(&self) -> Result<(), Failure> {
        let flushed = self.map.flush().and_then(|()| self.opened.file.sync_all());
        flushed.map_err(|error| Failure::output(self.path(), "cannot flush", &error))
    }

    /// Refuses a file that is no longer as long as it was when it was opened: what was moved may be gone.
    pub fn is_as_long_as_it_was(&self) -> Result<(), Failure> {
        let looked = self.opened.file.metadata();
        let now = looked.map_err(|error| Failure::input(self.path(), "cannot look at", &error))?;
        if now.len() == self.size() {
            return Ok(());
        }
        let said = "its length changed while its blocks moved; the state says so, apply again";
        Err(Failure::about(self.path(), IO, said))
    }

    /// What is said if the disk fails under a mapping that is only read.
    pub fn read_error(&self) -> Failure {
        let said = "the disk failed, or the file was cut, while it was read";
        Failure::about(self.path(), IO, said)
    }

    /// What is said if the disk fails under the mapping.
    pub fn bus_error(&self) -> Failure {
        let said = "the disk failed, or the file was cut, while its blocks moved; the state says so, apply again";
        Failure::about(self.path(), IO, said)
    }
}

/// File systems hand out room by so many bytes, or more.
const PAGE: i64 = 4096;

/// The stretches of a file of `len` bytes, by whole pages, that hold the blocks a sound diff names. Its addresses ascend.
fn stretches(diff: &[u8], len: usize) -> Vec<Range<i64>> {
    let mut pages: Vec<Range<i64>> = Vec::new();
    for (_, address) in explain::addresses(diff) {
        let page = address as i64 * BLOCK as i64 / PAGE;
        match pages.last_mut() {
            Some(last) if page <= last.end => last.end = page + 1,
            _ => pages.push(page..page + 1),
        }
    }
    let bytes = |pages: Range<i64>| pages.start * PAGE..(pages.end * PAGE).min(len as i64);
    pages.into_iter().map(bytes).collect()
}

fn mapped(size: u64) -> usize {
    usize::try_from(size).map_or(IMAGE_LIMIT + 1, |size| size.min(IMAGE_LIMIT + 1))
}

fn locked(path: &Path, access: Access, lock: Lock) -> Result<Opened, Failure> {
    let opened = files::open(path, access)?;
    lock_or_fail(&opened, lock)?;
    Ok(opened)
}

/// Locks a file that may be a volume.
pub fn lock_or_fail(opened: &Opened, lock: Lock) -> Result<(), Failure> {
    match sys::lock(&opened.file, lock) {
        Ok(true) => Ok(()),
        Ok(false) => {
            let said = "locked: another minnow is at work on this volume";
            Err(Failure::about(&opened.path, TRY_AGAIN, said))
        }
        Err(error) => Err(Failure::input(&opened.path, "cannot lock", &error)),
    }
}

/// A volume's state record and the file that holds it.
pub struct StateFile {
    /// Through all symbolic links, so that a new record replaces the file and not a link.
    path: PathBuf,
    metadata: Metadata,
    content: Content,
    /// The file that has the name, locked, where records are to be saved.
    lock: Option<File>,
}

impl StateFile {
    /// The state of a volume: the file named, or VOLUME.state.
    pub fn of(volume: &Path, named: Option<&Path>) -> Result<StateFile, Failure> {
        let (opened, path) = found(volume, named, Access::Read)?;
        StateFile::new(opened, path, None)
    }

    /// For an apply: nobody else may replace the record while this one lives.
    pub fn to_change(volume: &Volume, named: Option<&Path>) -> Result<StateFile, Failure> {
        let (opened, path) = found(volume.path(), named, Access::Change)?;
        apart(volume.is(), ("state", &opened.name, opened.identity))?;
        let lock = opened.file.try_clone();
        let lock = lock.map_err(|error| Failure::input(&opened.path, "cannot lock", &error))?;
        if !save::is_ours(&path, &lock)? {
            return Err(save::in_use(&opened.path));
        }
        StateFile::new(opened, path, Some(lock))
    }

    fn new(opened: Opened, path: PathBuf, lock: Option<File>) -> Result<StateFile, Failure> {
        let looked = opened.file.metadata();
        Ok(StateFile {
            metadata: looked
                .map_err(|error| Failure::input(&opened.path, "cannot look at", &error))?,
            content: files::read_state(opened)?,
            path,
            lock,
        })
    }

    pub fn name(&self) -> &str {
        &self.content.name
    }

    pub fn record(&self) -> &[u8] {
        &self.content.bytes
    }

    pub fn content(&self) -> &Content {
        &self.content
    }

    pub fn is(&self) -> Argument<'_> {
        ("state", self.name(), self.content.identity)
    }

    /// Refuses inputs that stand where a new record is written first.
    pub fn draft_apart(&self, inputs: &[Argument]) -> Result<(), Failure> {
        save::draft_apart(&self.path, inputs)
    }

    /// Has the record replaced by a new one, durably. The lock goes over to the new file.
    pub fn save(&mut self, record: &StateRecord) -> Result<(), Failure> {
        let saved = save::save(&self.path, record, Present::Replaced, Some(&self.metadata))?;
        self.lock = Some(saved);
        self.content.bytes = record.to_vec();
        self.content.size = record.len() as u64;
        Ok(())
    }
}

/// Opens the state of a volume, for writing too if that is wanted and may be: some file systems lock no other file for one
/// alone. Gives it with its path through all symbolic links.
fn found(
    volume: &Path,
    named: Option<&Path>,
    access: Access,
) -> Result<(Opened, PathBuf), Failure> {
    let path = named.map_or_else(|| default_state(volume), Path::to_path_buf);
    if let Err(error) = fs::metadata(&path) {
        if error.kind() == std::io::ErrorKind::NotFound {
            let said = "there is no state; `minnow state new` makes one";
            return Err(Failure::about(&path, NO_INPUT, said));
        }
    }
    let opened = files::open(&path, access).or_else(|_| files::open(&path, Access::Read))?;
    let followed = fs::canonicalize(&path);
    let followed = followed.map_err(|error| Failure::input(&path, "cannot follow", &error))?;
    Ok((opened, followed))
}

const SUFFIX: &str = ".state";

fn default_state(volume: &Path) -> PathBuf {
    let mut name = OsString::from(volume);
    name.push(SUFFIX);
    PathBuf::from(name)
}

/// The volume whose default state this file is, if its name is one.
pub fn volume_of(state: &Path) -> Option<PathBuf> {
    let name = state.file_name()?.as_bytes();
    let name = name.strip_suffix(SUFFIX.as_bytes())?;
    (!name.is_empty()).then(|| state.with_file_name(OsStr::from_bytes(name)))
}

#[cfg(test)]
mod tests {
    use super::*;

    fn naming(addresses: &[u32]) -> Vec<u8> {
        let mut diff = vec![0; minnow::HEAD];
        for address in addresses {
            diff.extend([0x57, 0x42]);
            diff.extend(address.to_le_bytes());
            diff.extend([0; BLOCK]);
        }
        diff
    }

    #[test]
    fn room_is_set_aside_by_stretches_of_named_pages() {
        assert_eq!(stretches(&naming(&[]), 512), []);
        let named = naming(&[1, 7, 8, 24, 25]);
        assert_eq!(stretches(&named, 26 * 512), [0..8192, 12288..13312]);
    }

    #[test]
    fn a_volume_is_found_by_the_bytes_of_its_name() {
        let path = |bytes: &'static [u8]| Path::new(OsStr::from_bytes(bytes));
        assert_eq!(
            volume_of(path(b"a/v\xff.state")).as_deref(),
            Some(path(b"a/v\xff"))
        );
        assert_eq!(volume_of(path(b"a/.state")), None);
        assert_eq!(volume_of(path(b"a/v")), None);
    }
}
