//! The program, run as a process in a folder of its own.

use std::fs::{self, File, Permissions};
use std::io::{self, Write};
use std::os::unix::fs::{MetadataExt, PermissionsExt};
use std::os::unix::process::CommandExt;
use std::path::{Path, PathBuf};
use std::process::{Child, ChildStdin, Command, ExitStatus, Stdio};
use std::time::{Duration, Instant};

/// A run that takes longer has not returned.
const MOST_TIME: Duration = Duration::from_secs(60);
const NOBODY: u32 = 65_534;
const CRATES: &str = concat!(env!("CARGO_MANIFEST_DIR"), "/../../crates");

/// The program of that name in a folder, or else where `rt` builds it.
pub fn built(folder: Option<&str>, name: &str) -> PathBuf {
    folder.map_or(Path::new(CRATES).join(name).join("out"), PathBuf::from).join(name)
}

/// A copy of the program, and the folder that it is run in.
pub struct Program {
    place: PathBuf,
    as_nobody: bool,
}

pub struct Ended {
    pub status: ExitStatus,
    pub stdout: Vec<u8>,
    pub stderr: Vec<u8>,
}

/// What standard input is.
pub enum Input<'a> {
    Pipe(&'a [u8]),
    /// A pipe that hands on so many bytes at a time.
    Pieces(&'a [u8], usize),
    Opened(&'a str),
}

impl Program {
    /// Root can read every file, so the program is run as nobody there.
    pub fn new(path: &Path) -> io::Result<Program> {
        let place = std::env::temp_dir().join(format!("leads-{}", std::process::id()));
        fs::create_dir_all(place.join("folder"))?;
        let as_nobody = fs::metadata(&place)?.uid() == 0;
        for folder in [place.clone(), place.join("folder")] {
            fs::set_permissions(folder, Permissions::from_mode(0o755))?;
        }
        fs::copy(path, place.join("leads"))?;
        fs::set_permissions(place.join("leads"), Permissions::from_mode(0o755))?;
        Ok(Program { place, as_nobody })
    }

    /// Where the program looks for the deck.
    pub fn deck(&self) -> PathBuf {
        self.place.join("folder/survey.dck")
    }

    /// Puts a file there that everyone may read.
    pub fn put(&self, bytes: &[u8]) -> io::Result<()> {
        fs::write(self.deck(), bytes)?;
        fs::set_permissions(self.deck(), Permissions::from_mode(0o644))
    }

    /// Removes whatever stands there.
    pub fn clear(&self) -> io::Result<()> {
        let deck = self.deck();
        match fs::symlink_metadata(&deck) {
            Err(_) => Ok(()),
            Ok(found) if found.is_dir() => fs::remove_dir(deck),
            Ok(_) => fs::remove_file(deck),
        }
    }

    /// Puts another file beside the deck, which everyone may read, or takes it away; the program may then write there.
    pub fn beside(&self, name: &str, bytes: Option<&[u8]>) -> io::Result<()> {
        let (folder, file) = (self.place.join("folder"), self.place.join("folder").join(name));
        fs::set_permissions(folder, Permissions::from_mode(0o777))?;
        if fs::exists(&file)? {
            fs::remove_file(&file)?;
        }
        let Some(bytes) = bytes else {
            return Ok(());
        };
        fs::write(&file, bytes)?;
        fs::set_permissions(&file, Permissions::from_mode(0o644))
    }

    /// A file beside the deck, if it is there.
    pub fn found(&self, name: &str) -> Option<Vec<u8>> {
        fs::read(self.place.join("folder").join(name)).ok()
    }

    pub fn run(&self, input: Input) -> io::Result<Ended> {
        let file = |name: &str| self.place.join(name);
        let mut command = Command::new(file("leads"));
        command.current_dir(file("folder")).stdin(stdin(&input)?);
        command.stdout(File::create(file("stdout"))?).stderr(File::create(file("stderr"))?);
        if self.as_nobody {
            command.gid(NOBODY).uid(NOBODY);
        }
        let mut child = command.spawn()?;
        let pipe = child.stdin.take();
        let status = std::thread::scope(|scope| {
            scope.spawn(|| pipe.map(|pipe| feed(pipe, &input)));
            ended(&mut child)
        })?;
        Ok(Ended { status, stdout: fs::read(file("stdout"))?, stderr: fs::read(file("stderr"))? })
    }
}

impl Drop for Program {
    fn drop(&mut self) {
        let _ = fs::remove_dir_all(&self.place);
    }
}

fn stdin(input: &Input) -> io::Result<Stdio> {
    match input {
        Input::Opened(path) => Ok(File::open(path)?.into()),
        _ => Ok(Stdio::piped()),
    }
}

/// Writes until the program reads no more.
fn feed(mut pipe: ChildStdin, input: &Input) {
    let (bytes, size) = match input {
        Input::Pipe(bytes) => (*bytes, bytes.len().max(1)),
        Input::Pieces(bytes, size) => (*bytes, *size),
        Input::Opened(_) => return,
    };
    for piece in bytes.chunks(size) {
        if pipe.write_all(piece).is_err() {
            return;
        }
        if size < bytes.len() {
            std::thread::sleep(Duration::from_millis(2));
        }
    }
}

fn ended(child: &mut Child) -> io::Result<ExitStatus> {
    let start = Instant::now();
    let mut pause = Duration::from_micros(100);
    loop {
        if let Some(status) = child.try_wait()? {
            return Ok(status);
        }
        if start.elapsed() > MOST_TIME {
            child.kill()?;
            child.wait()?;
            return Err(io::Error::other("the program does not return"));
        }
        std::thread::sleep(pause);
        pause = (2 * pause).min(Duration::from_millis(10));
    }
}
