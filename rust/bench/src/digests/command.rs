//! The command `sha256sum`, where there is one. Its time is that of a whole process, from its start to
//! its end, so the usual clock is read, and beside it stands the reading and digesting of the same
//! file here.

use std::fs::{self, File};
use std::hint::black_box;
use std::io::{self, Read};
use std::path::Path;
use std::process::{Command, Stdio};
use std::time::Duration;

use hdrfs::Volume;
use independent::sha256;

use crate::folder::Folder;
use crate::timing::{self, use_up};

pub fn run(rounds: usize, bytes: &[u8]) {
    let folder = Folder::new().expect("there is a place for 16 MiB");
    let (path, empty) = (folder.0.join("bytes"), folder.0.join("empty"));
    fs::write(&path, bytes).expect("a file can be written");
    fs::write(&empty, b"").expect("a file can be written");
    match digest_of(&path) {
        Ok(digits) => assert_eq!(digits, hex(bytes), "sha256sum gives another digest"),
        Err(error) => return say_why(&error),
    }
    let [mut one, mut two] = [(); 2].map(|()| Vec::new());
    let [command, of_nothing, proved, independent] = timing::best_by_wall_clock(
        rounds,
        [
            &mut || use_up(digest_of(&path).expect("it could be run before")),
            &mut || use_up(digest_of(&empty).expect("it could be run before")),
            &mut || use_up(Volume::digest(read(&path, &mut one))),
            &mut || use_up(sha256(read(&path, &mut two))),
        ],
    );
    println!(
        "{:<60}{:>10}",
        "SHA-256 of a file of 16 MiB, wall-clock time", "ms"
    );
    row("sha256sum, the whole process", command);
    row("the same of an empty file", of_nothing);
    row(
        "the proved library, read and digested in this process",
        proved,
    );
    row("the independent implementation, likewise", independent);
    println!();
}

fn say_why(error: &io::Error) {
    match error.kind() {
        io::ErrorKind::NotFound => println!("sha256sum: not timed; it is not on the PATH\n"),
        _ => println!("sha256sum: not timed; it cannot be run: {error}\n"),
    }
}

fn row(name: &str, time: Duration) {
    println!("{name:<60}{:>10.3}", time.as_secs_f64() * 1e3);
}

/// The digits that the command prints. The file is its input, so that they stand first whatever the
/// file's name is.
fn digest_of(path: &Path) -> io::Result<String> {
    let output = Command::new("sha256sum")
        .stdin(File::open(path)?)
        .stderr(Stdio::inherit())
        .output()?;
    let text = String::from_utf8_lossy(&output.stdout);
    Ok(text.split(' ').next().unwrap_or_default().to_string())
}

fn hex(bytes: &[u8]) -> String {
    let digest = sha256(bytes).expect("no more than 16 MiB");
    digest.map(|byte| format!("{byte:02x}")).concat()
}

fn read<'a>(path: &Path, buffer: &'a mut Vec<u8>) -> &'a [u8] {
    buffer.clear();
    let mut file = File::open(path).expect("the file is there");
    file.read_to_end(buffer).expect("the file can be read");
    black_box(buffer)
}
