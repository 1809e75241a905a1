//! The files of a node: its logs, which it alone has in its hands, and what stands beside them. What a log says is the
//! library's: docs/FORMATS.md, "Log".
use crate::fault::{Fault, at_path};
use std::fs::{self, File, OpenOptions, TryLockError};
use std::io::{self, Read, Write};
use std::os::unix::fs::{FileExt, OpenOptionsExt};
use std::path::{Path, PathBuf};

/// Room that is made ahead of what is forced to the disk: a file that doesn't grow is there a third sooner.
const ROOM: u64 = 1 << 20;

/// A file that grows by entries.
#[derive(Debug)]
pub struct LogFile {
    path: PathBuf,
    file: File,
    /// How many bytes are written, and how many the file has, where room was made.
    end: u64,
    room: u64,
}

/// The folder of this file.
fn folder_of(path: &Path) -> &Path {
    path.parent().filter(|it| !it.as_os_str().is_empty()).unwrap_or(Path::new("."))
}

/// Has the name of this file on the disk.
fn sync_folder(path: &Path) -> io::Result<()> {
    File::open(folder_of(path))?.sync_all()
}

/// Has a file with these bytes alone, on the disk with its name.
pub fn keep(path: &Path, bytes: &[u8]) -> io::Result<()> {
    let mut file = File::create(path).map_err(|why| at_path(path, why))?;
    file.write_all(bytes)?;
    file.sync_all()?;
    sync_folder(path)
}

/// A log is there where a new one is begun.
pub fn is_there(path: &Path) -> Fault {
    let what = "is there already: resume it, or take a new one for a new cluster";
    Fault::OtherLog(format!("{} {what}", path.display()))
}

impl LogFile {
    fn of(path: &Path, options: &OpenOptions) -> Result<Self, Fault> {
        let file = options.open(path).map_err(|why| at_path(path, why))?;
        match file.try_lock() {
            Ok(()) => Ok(Self { path: path.to_path_buf(), file, end: 0, room: 0 }),
            Err(TryLockError::WouldBlock) => {
                Err(Fault::OtherLog(format!("{} is the log of a node that runs", path.display())))
            }
            Err(TryLockError::Error(why)) => Err(at_path(path, why).into()),
        }
    }

    /// A new file.
    ///
    /// # Errors
    ///
    /// Where there is one at this path already, or none can be made.
    pub fn create(path: &Path) -> Result<Self, Fault> {
        Self::of(path, OpenOptions::new().write(true).create_new(true).mode(0o600)).map_err(|why| match why {
            Fault::Io(it) if it.kind() == io::ErrorKind::AlreadyExists => is_there(path),
            why => why,
        })
    }

    /// A file that is there, with its text. From here on it is in no other program's hands.
    pub fn reopen(path: &Path) -> Result<(Self, Vec<u8>), Fault> {
        let mut file = Self::of(path, OpenOptions::new().read(true).write(true))?;
        let mut text = Vec::new();
        file.file.read_to_end(&mut text).map_err(|why| at_path(path, why))?;
        Ok((file, text))
    }

    /// Begins a log in this file, which is on the disk then.
    pub fn begin(&mut self, head: &[u8]) -> io::Result<()> {
        self.go_on(0)?;
        self.write(head, false)?;
        self.force_with_name()
    }

    /// Goes on after the first bytes of the file; what is behind them is gone.
    pub fn go_on(&mut self, whole: u64) -> io::Result<()> {
        self.end = whole;
        self.file.set_len(whole)
    }

    /// Hands entries to the system, in one call. Where they are forced to the disk then, room is made before.
    pub fn write(&mut self, entries: &[u8], is_forced: bool) -> io::Result<()> {
        let end = self.end + entries.len() as u64;
        if is_forced && end > self.room {
            self.file.set_len(end + ROOM)?;
            self.room = end + ROOM;
        }
        self.file.write_all_at(entries, self.end)?;
        self.end = end;
        Ok(())
    }

    /// Has all that was written on the disk, and the name of the file.
    pub fn force_with_name(&self) -> io::Result<()> {
        self.file.sync_all()?;
        sync_folder(&self.path)
    }

    /// Has all that was written on the disk.
    pub fn force(&self) -> io::Result<()> {
        self.file.sync_data()
    }
}

impl Drop for LogFile {
    /// Gives back the room. (Where that fails, it is zeros after the last line, which are no entry.)
    fn drop(&mut self) {
        if self.room > self.end {
            let _ = self.file.set_len(self.end);
        }
    }
}

/// The log of a chapter.
pub fn log_of(path: &Path, chapter: u64) -> PathBuf {
    if chapter == 0 { path.to_path_buf() } else { path.with_added_extension(chapter.to_string()) }
}

/// The file that says that nothing more is called in the chapter of this log: how many operations were called up to its
/// end.
pub fn quiet_of(log: &Path) -> PathBuf {
    log.with_added_extension("quiet")
}

/// How many operations its callers called up to the end of the chapter of this log.
pub fn called_up_to(log: &Path) -> Result<u64, Fault> {
    let path = quiet_of(log);
    let text = fs::read_to_string(&path).map_err(|why| at_path(&path, why))?;
    let count = text.strip_suffix('\n').and_then(|it| it.parse().ok());
    count.ok_or_else(|| Fault::of_log(&path, "no number of calls"))
}

/// The last chapter that has a log at this path. Those before the last two may have been put aside.
pub fn last_chapter(path: &Path) -> Result<u64, Fault> {
    let begin = format!("{}.", path.file_name().unwrap_or_default().to_string_lossy());
    let (folder, mut last) = (folder_of(path), 0);
    for entry in fs::read_dir(folder).map_err(|why| at_path(folder, why))? {
        let name = entry?.file_name().to_string_lossy().into_owned();
        let number = name.strip_prefix(&begin).filter(|it| it.starts_with(|it: char| matches!(it, '1'..='9')));
        last = number.and_then(|it| it.parse().ok()).map_or(last, |it| last.max(it));
    }
    Ok(last)
}
