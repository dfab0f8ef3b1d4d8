//! Volumes that change after they were checked, and volumes that can be read once only.

#[path = "support/set.rs"]
mod set;

use std::fs;
use std::io::{self, Read};
use std::path::{Path, PathBuf};

use hdrfs::{Archive, ArchiveError, Checker};
use set::{once, volume, Folder};

/// Two volumes. The first has data in several pages, the second the inode 7 of a file that needs
/// the last hundred bytes of them.
fn volumes() -> [Vec<u8>; 2] {
    let mut start = None;
    let first = volume(0, |draft| start = Some(draft.data(&[b'x'; 200_000])));
    let mut place = start.unwrap();
    place.0 += 199_900;
    let second = volume(1, |draft| draft.file(7, 100, &[once(0, place, 100, 0)]));
    [first, second]
}

struct Set {
    folder: Folder,
    archive: Archive,
    volumes: [Vec<u8>; 2],
}

fn set(cache: usize) -> Set {
    let volumes = volumes();
    let folder = Folder::new();
    let mut archive = Archive::with_cache(cache);
    for path in folder.put_all(&volumes) {
        archive.insert(Checker::new().path(path).unwrap()).unwrap();
    }
    Set {
        folder,
        archive,
        volumes,
    }
}

/// Reads file 7.
fn content(archive: &Archive) -> Result<Vec<u8>, ArchiveError> {
    let file = archive.file(7)?;
    let mut content = Vec::new();
    match file.reader().read_to_end(&mut content) {
        Ok(_) => Ok(content),
        Err(error) => Err(*error.into_inner().unwrap().downcast().unwrap()),
    }
}

fn is_changed(answer: &Result<Vec<u8>, ArchiveError>, volume: &Path) -> bool {
    matches!(answer, Err(ArchiveError::Changed { path }) if path == volume)
}

#[test]
fn a_changed_byte_is_noticed() {
    let set = set(0);
    let path = set.folder.path("0.vol");
    assert_eq!(content(&set.archive).unwrap(), [b'x'; 100]);
    // The bytes that are needed, and others in the same page.
    for back in [5, 50, 103, 200] {
        let mut bytes = set.volumes[0].clone();
        let at = bytes.len() - back;
        bytes[at] = b'y';
        fs::write(&path, &bytes).unwrap();
        assert!(is_changed(&content(&set.archive), &path), "{back}");
    }
    fs::write(&path, &set.volumes[0]).unwrap();
    assert_eq!(content(&set.archive).unwrap(), [b'x'; 100]);
}

#[test]
fn another_sound_volume_of_the_same_length_is_noticed() {
    let set = set(0);
    let path = set.folder.path("0.vol");
    let other = volume(0, |draft| draft.data(&[b'y'; 200_000]));
    assert_eq!(other.len(), set.volumes[0].len());
    fs::write(&path, other).unwrap();
    assert!(is_changed(&content(&set.archive), &path));
}

#[test]
fn a_changed_inode_block_is_noticed() {
    let set = set(0);
    let path = set.folder.path("1.vol");
    let mut bytes = set.volumes[1].clone();
    bytes[100] ^= 1;
    fs::write(&path, bytes).unwrap();
    assert!(is_changed(&content(&set.archive), &path));
    // What was found when the volume was checked is known all the same.
    assert_eq!(set.archive.inode(7).unwrap().size, 100);
}

#[test]
fn a_changed_length_is_noticed() {
    let set = set(0);
    let path = set.folder.path("0.vol");
    let mut bytes = set.volumes[0].clone();
    bytes.push(0);
    fs::write(&path, &bytes).unwrap();
    assert!(is_changed(&content(&set.archive), &path));
    for len in [0, 100, 65_536, bytes.len() - 2] {
        fs::write(&path, &bytes[..len]).unwrap();
        assert!(is_changed(&content(&set.archive), &path), "{len}");
    }
}

#[test]
fn a_volume_that_went_away_is_noticed() {
    let set = set(0);
    let path = set.folder.path("0.vol");
    fs::remove_file(&path).unwrap();
    let error = content(&set.archive).unwrap_err();
    let ArchiveError::Io { path: told, error } = error else {
        panic!("{error}");
    };
    assert_eq!(
        (told, error.kind()),
        (path.clone(), io::ErrorKind::NotFound)
    );
    fs::create_dir(&path).unwrap();
    assert!(is_changed(&content(&set.archive), &path));
}

#[test]
fn a_failure_comes_again_until_it_is_gone() {
    let set = set(0);
    let path = set.folder.path("0.vol");
    let file = set.archive.file(7).unwrap();
    let mut reader = file.reader();
    fs::write(&path, b"short").unwrap();
    for _ in 0..3 {
        assert!(reader.read(&mut [0; 10]).is_err());
    }
    fs::write(&path, &set.volumes[0]).unwrap();
    let mut content = Vec::new();
    reader.read_to_end(&mut content).unwrap();
    assert_eq!(content, [b'x'; 100]);
}

#[test]
fn bytes_before_a_failure_are_read() {
    let folder = Folder::new();
    let mut start = None;
    let first = volume(0, |draft| start = Some(draft.data(b"first")));
    let second = volume(1, |draft| {
        let place = draft.data(b"second");
        let extents = [once(1, place, 6, 0), once(0, start.unwrap(), 5, 6)];
        draft.file(7, 11, &extents)
    });
    let paths = folder.put_all(&[first, second]);
    let archive = Archive::open(&paths).unwrap();
    fs::write(&paths[0], b"other").unwrap();
    let file = archive.file(7).unwrap();
    let mut reader = file.reader();
    let mut buf = [0; 11];
    assert_eq!(reader.read(&mut buf).unwrap(), 6);
    assert_eq!(&buf[..6], b"second");
    assert!(reader.read(&mut buf).is_err());
}

#[test]
fn what_is_held_is_what_was_checked() {
    let set = set(1 << 20);
    assert_eq!(content(&set.archive).unwrap(), [b'x'; 100]);
    fs::write(set.folder.path("0.vol"), b"other").unwrap();
    assert_eq!(content(&set.archive).unwrap(), [b'x'; 100]);
}

/// Makes a named pipe, through which `bytes` come once.
#[cfg(unix)]
fn pipe(folder: &Folder, name: &str, bytes: Vec<u8>) -> PathBuf {
    let path = folder.path(name);
    let made = std::process::Command::new("mkfifo").arg(&path).status();
    assert!(made.unwrap().success());
    let writer = path.clone();
    std::thread::spawn(move || fs::write(writer, bytes));
    path
}

#[cfg(unix)]
#[test]
fn a_pipe_is_read_once_and_kept() {
    let folder = Folder::new();
    let [first, second] = volumes();
    let paths = [
        pipe(&folder, "first", first),
        pipe(&folder, "second", second),
    ];
    let archive = Archive::open(&paths).unwrap();
    for path in &paths {
        fs::remove_file(path).unwrap();
    }
    for _ in 0..2 {
        assert_eq!(content(&archive).unwrap(), [b'x'; 100]);
    }
}

#[cfg(unix)]
#[test]
fn a_pipe_in_the_place_of_a_volume_is_noticed() {
    let set = set(0);
    let path = set.folder.path("0.vol");
    fs::remove_file(&path).unwrap();
    let made = std::process::Command::new("mkfifo").arg(&path).status();
    assert!(made.unwrap().success());
    assert!(is_changed(&content(&set.archive), &path));
}

#[test]
fn a_file_that_is_too_long_is_refused_and_not_read_on() {
    let folder = Folder::new();
    let path = folder.path("long.vol");
    fs::File::create(&path).unwrap().set_len(1 << 40).unwrap();
    let error = Checker::new().path(&path).unwrap_err();
    let ArchiveError::Refused { refusal, .. } = error else {
        panic!("{error}");
    };
    assert_eq!((refusal.number, refusal.offset), (1, 0));
}
