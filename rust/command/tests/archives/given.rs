//! The command, run on the volumes of an archive.

use std::ffi::OsStr;
use std::path::{Path, PathBuf};
use std::process::Command;

use compare::json::Json;
use generator::rng::Rng;

/// What the command is given: a folder, or the volumes in it one by one.
#[derive(Debug)]
pub struct Given {
    paths: Vec<PathBuf>,
}

/// What came of it.
#[derive(Debug)]
pub struct Ran {
    status: Option<i32>,
    pub out: Vec<u8>,
    err: String,
}

impl Given {
    pub fn new(rng: &mut Rng, folder: &Path, paths: Vec<PathBuf>) -> Given {
        let paths = if rng.once_in(2) {
            vec![folder.to_path_buf()]
        } else {
            paths
        };
        Given { paths }
    }

    pub fn run<S: AsRef<OsStr>>(&self, command: &str, options: &[S]) -> Ran {
        let mut process = Command::new(env!("CARGO_BIN_EXE_hdrfs"));
        process.arg(command).args(&self.paths).args(options);
        let done = process.output().expect("the command runs");
        Ran {
            status: done.status.code(),
            out: done.stdout,
            err: String::from_utf8_lossy(&done.stderr).into_owned(),
        }
    }
}

impl Ran {
    /// Fails unless it ended so.
    pub fn ended(&self, status: i32) -> Result<(), String> {
        if self.status == Some(status) {
            return Ok(());
        }
        let out = String::from_utf8_lossy(&self.out);
        let told = self.status;
        Err(format!(
            "ended with {told:?} and not {status}\n{out}{}",
            self.err
        ))
    }

    /// The objects that it wrote, one a line.
    pub fn objects(&self) -> Result<Vec<Json>, String> {
        let text = str::from_utf8(&self.out).map_err(|error| error.to_string())?;
        text.lines().map(Json::parse).collect()
    }

    /// The only object.
    pub fn object(&self) -> Result<Json, String> {
        let mut objects = self.objects()?;
        match (objects.pop(), objects.is_empty()) {
            (Some(object), true) => Ok(object),
            _ => Err(format!("not one object: {self:?}")),
        }
    }
}

/// Which volume a field names, by its file's name.
pub fn place(object: &Json, field: &str) -> Option<usize> {
    let path = Path::new(object.field(field).text()?);
    path.file_stem()?.to_str()?.parse().ok()
}
