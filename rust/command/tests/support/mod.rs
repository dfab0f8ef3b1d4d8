//! Running the command, in a folder of its own for each test.
#![allow(dead_code)] // Each test file uses a part of this one.

pub mod json;
pub mod pipes;
pub mod signals;
pub mod terminal;

#[path = "../../../hdrfs/tests/support/mod.rs"]
pub mod volumes;

use std::ffi::OsStr;
use std::fs;
use std::io::Write;
use std::os::unix::fs::PermissionsExt;
use std::path::{Path, PathBuf};
use std::process::{Command, Output, Stdio};

/// A folder that begins empty.
pub struct Folder(pub PathBuf);

impl Folder {
    pub fn new(name: &str) -> Folder {
        let path = Path::new(env!("CARGO_TARGET_TMPDIR")).join(name);
        let _ = fs::remove_dir_all(&path);
        fs::create_dir_all(&path).unwrap();
        Folder(path)
    }

    pub fn put(&self, name: &str, bytes: &[u8]) {
        fs::write(self.0.join(name), bytes).unwrap();
    }

    pub fn read(&self, name: &str) -> Vec<u8> {
        fs::read(self.0.join(name)).unwrap()
    }

    /// The names of all files in it, sorted: also of those that a command should have removed.
    pub fn names(&self) -> Vec<String> {
        let entries = fs::read_dir(&self.0).unwrap();
        let name = |entry: fs::DirEntry| entry.file_name().to_string_lossy().into_owned();
        let mut names: Vec<String> = entries.map(|entry| name(entry.unwrap())).collect();
        names.sort();
        names
    }

    /// The command, to be run in this folder.
    pub fn command(&self) -> Command {
        let mut command = Command::new(env!("CARGO_BIN_EXE_hdrfs"));
        command.current_dir(&self.0);
        command
    }

    /// Runs the command with the words of a line.
    pub fn run(&self, line: &str) -> Answer {
        self.run_words(line.split_whitespace())
    }

    pub fn run_words(&self, words: impl IntoIterator<Item = impl AsRef<OsStr>>) -> Answer {
        Answer::new(self.command().args(words).output().unwrap())
    }

    /// Runs a command that must fail, with no file at `out` and with one, and compares the folder
    /// before and after.
    pub fn nothing_is_written(&self, line: &str, status: i32, said: &str) {
        for existing in [false, true] {
            let _ = fs::remove_file(self.0.join("out"));
            if existing {
                self.put("out", b"as it was");
            }
            let before = self.names();
            let answer = self.run(line);
            assert_eq!(
                (answer.status, answer.out.as_str()),
                (status, ""),
                "{line}: {answer:?}"
            );
            assert!(answer.err.starts_with(said), "{line}: {answer:?}");
            assert_eq!(answer.err.lines().count(), 1, "{line}");
            assert_eq!(self.names(), before, "{line}");
            if existing {
                assert_eq!(self.read("out"), b"as it was", "{line}");
            }
        }
    }

    /// Runs a command that writes `out` from `v`, under a limit that is lower than what there is to
    /// write: it fails, `out` is as it was, and nothing else is left.
    pub fn too_large_to_write(&self, words: &str) {
        self.put("out", b"as it was");
        let line = format!("ulimit -f 16 && exec \"$0\" {words}");
        let mut command = Command::new("sh");
        command.args(["-c", &line, env!("CARGO_BIN_EXE_hdrfs")]);
        let answer = Answer::new(command.current_dir(&self.0).output().unwrap());
        assert_eq!(answer.status, 2, "{answer:?}");
        let said = "out: cannot be written: File too large";
        assert!(answer.err.starts_with(said), "{answer:?}");
        assert_eq!(self.read("out"), b"as it was");
        assert_eq!(self.names(), ["out", "v"]);
    }

    /// Who may read and write a file in it.
    pub fn permissions(&self, name: &str) -> u32 {
        let about = fs::symlink_metadata(self.0.join(name)).unwrap();
        about.permissions().mode() & 0o777
    }
}

/// Runs a command with some bytes for standard input.
pub fn fed(mut command: Command, input: &[u8]) -> Output {
    command.stdin(Stdio::piped()).stdout(Stdio::piped());
    let mut child = command.stderr(Stdio::piped()).spawn().unwrap();
    let mut pipe = child.stdin.take().unwrap();
    pipe.write_all(input).unwrap();
    drop(pipe);
    child.wait_with_output().unwrap()
}

/// A volume of another file system: all the bytes of its ID are this one.
pub fn of_file_system(mut volume: Vec<u8>, id: u8) -> Vec<u8> {
    volume[18..34].fill(id);
    let header = volumes::sealed(volume[..76].to_vec());
    volume[..80].copy_from_slice(&header);
    volume
}

/// The ID and the hash of the volumes of the tests, where nothing else is said.
pub const NO_ID: &str = "00000000000000000000000000000000";
pub const NO_HASH: &str = "0000000000000000000000000000000000000000000000000000000000000000";

/// What a run printed, and its exit status.
#[derive(Debug, PartialEq, Eq)]
pub struct Answer {
    pub status: i32,
    pub out: String,
    pub err: String,
}

impl Answer {
    pub fn new(output: Output) -> Answer {
        Answer {
            status: output.status.code().expect("the command ended by itself"),
            out: String::from_utf8(output.stdout).unwrap(),
            err: String::from_utf8(output.stderr).unwrap(),
        }
    }

    /// Compares all three at once, so that a failed test shows them all.
    pub fn is(&self, status: i32, out: &str, err: &str) {
        let (out, err) = (out.to_string(), err.to_string());
        assert_eq!(*self, Answer { status, out, err });
    }

    /// The objects that were printed.
    pub fn objects(&self) -> Vec<json::Object> {
        self.out.lines().map(json::parse).collect()
    }
}
