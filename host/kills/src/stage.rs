//! The folder of a round: the volume, its state and the diffs; and runs of the tool there, killed or let to their end.

use crate::history::{History, BLOCK};
use crate::rules::Head;
use crate::trouble::Trouble;
use std::fs::{self, File};
use std::io;
use std::os::unix::fs::FileExt;
use std::os::unix::process::ExitStatusExt;
use std::path::{Path, PathBuf};
use std::process::{Child, Command, Stdio};
use std::thread::sleep;
use std::time::{Duration, Instant};

pub const VOLUME: &str = "vol";
pub const STATE: &str = "vol.state";
/// Under this name the tool writes a record before it puts it in its place.
pub const DRAFT: &str = "vol.state.minnow-new";

const SIGKILL: i32 = 9;
/// How often a run is looked at that is to be killed, and one that is let to its end.
const LOOK: Duration = Duration::from_micros(30);
const PAUSE: Duration = Duration::from_micros(500);
/// A run that takes longer does not end: it is killed, which is a fault.
const PATIENCE: Duration = Duration::from_secs(60);

/// The program that is tested, and words that come before its own.
#[derive(Clone)]
pub struct Tool {
    pub program: PathBuf,
    pub words: Vec<String>,
}

/// When a run is killed.
#[derive(Clone, Copy, Debug)]
pub enum Moment {
    Never,
    After(Duration),
    /// When the state has changed so many times, and then so long after.
    Changes(usize, Duration),
    /// When this block is seen to hold something else.
    Moved(usize),
}

pub struct Ended {
    pub killed: bool,
    pub took: Duration,
}

pub struct Stage {
    folder: PathBuf,
    tool: Tool,
}

impl Stage {
    pub fn new(seed: u64, tool: &Tool) -> io::Result<Stage> {
        let name = format!("minnow-kills-{}-{seed}", std::process::id());
        let folder = std::env::temp_dir().join(name);
        fs::create_dir(&folder)?;
        let tool = tool.clone();
        Ok(Stage { folder, tool })
    }

    pub fn folder(&self) -> &Path {
        &self.folder
    }

    pub fn remove(self) -> io::Result<()> {
        fs::remove_dir_all(&self.folder)
    }

    pub fn read(&self, name: &str) -> Result<Vec<u8>, Trouble> {
        Ok(fs::read(self.folder.join(name))?)
    }

    pub fn write(&self, name: &str, bytes: &[u8]) -> Result<(), Trouble> {
        Ok(fs::write(self.folder.join(name), bytes)?)
    }

    pub fn has(&self, name: &str) -> bool {
        self.folder.join(name).exists()
    }

    /// The diff's file, made on first use.
    pub fn diff(&self, head: &Head, history: &History) -> Result<String, Trouble> {
        let name = head.name();
        if !self.has(&name) {
            self.write(&name, &history.diff(head))?;
        }
        Ok(name)
    }

    /// Runs the tool; it must be killed at its moment or end with 0.
    pub fn run(&self, words: &[String], moment: Moment) -> Result<Ended, Trouble> {
        let start = Instant::now();
        let mut child = Command::new(&self.tool.program)
            .args(&self.tool.words)
            .args(words)
            .current_dir(&self.folder)
            .stdin(Stdio::null())
            .stdout(Stdio::null())
            .stderr(Stdio::piped())
            .spawn()?;
        let waited = self.wait(&mut child, moment);
        // It may have ended by itself; then there is nothing to kill.
        let _ = child.kill();
        let ended = child.wait_with_output()?;
        waited?;
        let took = start.elapsed();
        let killed = ended.status.signal() == Some(SIGKILL);
        if killed && !matches!(moment, Moment::Never) || ended.status.success() {
            return Ok(Ended { killed, took });
        }
        let (line, said) = (words.join(" "), String::from_utf8_lossy(&ended.stderr));
        let status = ended.status;
        Err(Trouble::Wrong(format!("{line}: {status}: {}", said.trim())))
    }

    /// Waits for the moment, or for the end of the process.
    fn wait(&self, child: &mut Child, moment: Moment) -> Result<(), Trouble> {
        match moment {
            Moment::Never => until(child, PAUSE, || Ok(false)),
            Moment::After(time) => {
                sleep(time);
                Ok(())
            }
            Moment::Changes(changes, time) => {
                let mut last = self.read(STATE)?;
                for _ in 0..changes {
                    until(child, LOOK, || Ok(self.read(STATE)? != last))?;
                    last = self.read(STATE)?;
                }
                sleep(time);
                Ok(())
            }
            Moment::Moved(a) => {
                let volume = File::open(self.folder.join(VOLUME))?;
                let first = block_at(&volume, a)?;
                until(child, LOOK, || Ok(block_at(&volume, a)? != first))
            }
        }
    }
}

fn block_at(volume: &File, a: usize) -> Result<[u8; BLOCK], Trouble> {
    let mut block = [0; BLOCK];
    volume.read_exact_at(&mut block, (BLOCK * a) as u64)?;
    Ok(block)
}

/// Waits until something is so, the process has ended, or it has been waited for too long.
fn until(
    child: &mut Child,
    pause: Duration,
    mut is_so: impl FnMut() -> Result<bool, Trouble>,
) -> Result<(), Trouble> {
    let start = Instant::now();
    while start.elapsed() < PATIENCE && child.try_wait()?.is_none() && !is_so()? {
        sleep(pause);
    }
    Ok(())
}
