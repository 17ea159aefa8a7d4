//! Where the tour plays: a folder, the files in it, and runs of this very tool as processes of their own, one of them killed.

use super::history;
use crate::failure::{shown, Failure, CANNOT_CREATE};
use minnow::{State, BLOCK};
use std::fs::{self, DirBuilder, File};
use std::io::{self, ErrorKind};
use std::os::unix::fs::{DirBuilderExt, FileExt};
use std::path::{Path, PathBuf};
use std::process::{Child, Command, Output, Stdio};
use std::thread::sleep;
use std::time::{Duration, Instant};

/// The volume that the night is about, and its state.
pub const VOLUME: &str = "queue";
pub const STATE: &str = "queue.state";

/// How often the state is looked at while the tour waits for its moment.
const LOOK: Duration = Duration::from_micros(50);
/// No apply of the tour takes this long.
const PATIENCE: Duration = Duration::from_secs(60);
/// A kill may come too late on a busy machine; then the same is played again.
const TRIES: u32 = 50;

pub struct Stage {
    folder: PathBuf,
    /// Whether the folder is ours to remove.
    to_remove: bool,
    tool: PathBuf,
}

/// A run that was killed in the middle.
pub struct Cut {
    /// Of the blocks that change, how many had moved.
    pub moved: usize,
    pub of: usize,
    pub tries: u32,
}

impl Stage {
    /// In a folder to keep, or in a new one that is removed at the end.
    pub fn new(keep: Option<&Path>) -> Result<Stage, Failure> {
        let tool = std::env::current_exe().map_err(|error| {
            Failure::internal(format!("the tool does not find itself: {error}"))
        })?;
        let folder = match keep {
            Some(folder) => kept(folder)?,
            None => temporary()?,
        };
        let to_remove = keep.is_none();
        Ok(Stage {
            folder,
            to_remove,
            tool,
        })
    }

    pub fn write(&self, name: &str, bytes: &[u8]) -> Result<(), Failure> {
        let path = self.folder.join(name);
        fs::write(&path, bytes).map_err(|error| Failure::output(&path, "cannot write", &error))
    }

    pub fn read(&self, name: &str) -> Result<Vec<u8>, Failure> {
        let path = self.folder.join(name);
        fs::read(&path).map_err(|error| Failure::input(&path, "cannot read", &error))
    }

    /// Runs the tool in the folder.
    pub fn run(&self, line: &str) -> Result<Output, Failure> {
        let output = self.command(line).output();
        output.map_err(|error| not_run(line, &error))
    }

    fn command(&self, line: &str) -> Command {
        let mut command = Command::new(&self.tool);
        command
            .args(line.split_whitespace())
            .current_dir(&self.folder)
            .stdin(Stdio::null());
        command
    }

    /// Plays `before`, starts the tool and kills it when an apply from p to q has moved a quarter of what changes.
    pub fn cut(
        &self,
        line: &str,
        (p, q): (u64, u64),
        mut before: impl FnMut() -> Result<(), Failure>,
    ) -> Result<Cut, Failure> {
        let (changed, during) = (history::changed(p, q), State::pair(p, q));
        let of = changed.len();
        for tries in 1..=TRIES {
            before()?;
            self.kill_at_block(line, during, changed[of / 4])?;
            let image = self.read(VOLUME)?;
            let moved = changed.iter().filter(|a| has_moved(&image, **a, q)).count();
            if self.state() == Some(during) && moved > 0 && moved < of {
                return Ok(Cut { moved, of, tries });
            }
        }
        let said = format!("minnow {line}: in {TRIES} tries no kill came in the middle");
        Err(Failure::internal(said))
    }

    fn kill_at_block(&self, line: &str, during: State, block: usize) -> Result<(), Failure> {
        let mut command = self.command(line);
        command.stdout(Stdio::null()).stderr(Stdio::piped());
        let mut child = command.spawn().map_err(|error| not_run(line, &error))?;
        let watched = self.watch(&mut child, during, block);
        // It may have ended by itself; then there is nothing to kill.
        let _ = child.kill();
        let ended = child.wait_with_output();
        let ended = ended.map_err(|error| not_run(line, &error))?;
        watched.map_err(|error| not_run(line, &error))?;
        match ended.status.code() {
            None | Some(0) => Ok(()),
            Some(_) => {
                let said = String::from_utf8_lossy(&ended.stderr);
                Err(Failure::internal(format!("minnow {line}: {}", said.trim())))
            }
        }
    }

    /// Waits until the state is `during` and `block` has moved, or the process has ended.
    fn watch(&self, child: &mut Child, during: State, block: usize) -> io::Result<()> {
        let volume = File::open(self.folder.join(VOLUME))?;
        let (start, wanted) = (Instant::now(), history::block(block, during.t));
        let mut seen = [0; BLOCK];
        while start.elapsed() < PATIENCE && child.try_wait()?.is_none() {
            if self.state() == Some(during) {
                volume.read_exact_at(&mut seen, (BLOCK * block) as u64)?;
                if seen == wanted {
                    break;
                }
            }
            sleep(LOOK);
        }
        Ok(())
    }

    fn state(&self) -> Option<State> {
        let record = fs::read(self.folder.join(STATE)).ok()?;
        minnow::read_state(&record).ok()
    }

    /// Removes the folder unless it is kept, and says which.
    pub fn end(&mut self) -> Result<String, Failure> {
        if !self.to_remove {
            return Ok(format!("the files are in {}", shown(&self.folder)));
        }
        self.to_remove = false;
        fs::remove_dir_all(&self.folder)
            .map_err(|error| Failure::output(&self.folder, "cannot remove", &error))?;
        Ok("its files are removed".to_string())
    }
}

impl Drop for Stage {
    fn drop(&mut self) {
        if self.to_remove {
            let _ = fs::remove_dir_all(&self.folder);
        }
    }
}

fn has_moved(image: &[u8], a: usize, q: u64) -> bool {
    image[BLOCK * a..BLOCK * (a + 1)] == history::block(a, q)
}

fn not_run(line: &str, error: &io::Error) -> Failure {
    Failure::internal(format!("minnow {line} cannot be run: {error}"))
}

/// A folder that is there already will do if it is empty.
fn kept(folder: &Path) -> Result<PathBuf, Failure> {
    match fs::create_dir(folder) {
        Ok(()) => {}
        Err(error) if error.kind() == ErrorKind::AlreadyExists => empty(folder)?,
        Err(error) => return Err(Failure::output(folder, "cannot make the folder", &error)),
    }
    fs::canonicalize(folder).map_err(|error| Failure::output(folder, "cannot follow", &error))
}

fn empty(folder: &Path) -> Result<(), Failure> {
    let entries = fs::read_dir(folder);
    let mut entries = entries
        .map_err(|error| Failure::output(folder, "is no folder to keep files in", &error))?;
    match entries.next() {
        None => Ok(()),
        Some(_) => Err(Failure::about(folder, CANNOT_CREATE, "is not empty")),
    }
}

/// A new folder for us alone.
fn temporary() -> Result<PathBuf, Failure> {
    let (parent, id) = (std::env::temp_dir(), std::process::id());
    for number in 0.. {
        let folder = parent.join(format!("minnow-tour-{id}-{number}"));
        match DirBuilder::new().mode(0o700).create(&folder) {
            Ok(()) => return Ok(folder),
            Err(error) if error.kind() == ErrorKind::AlreadyExists => {}
            Err(error) => return Err(Failure::output(&folder, "cannot make the folder", &error)),
        }
    }
    Err(Failure::about(&parent, CANNOT_CREATE, "has no name left"))
}
