//! 40 volumes of 16 MiB, and files of 1,024 extents that are taken from 20 of them in turn.

use std::fs::{self, File};
use std::hint::black_box;
use std::io::Read;
use std::path::{Path, PathBuf};
use std::time::Duration;

use hdrfs::{sys, Archive, Extent, Extents, Inode, Logical, Physical, Writer};

use crate::folder::Folder;
use crate::timing::{self, use_up};

const LIMIT: usize = 16_777_216;
const VOLUMES: u64 = 40;

/// How many volumes have a part of a file, and how many parts it has.
const USED: u64 = 20;
const EXTENTS: u64 = 1024;

/// How long the parts of the files are. The file's number is its place here.
const LENS: [u64; 4] = [100, 4_096, 16_384, 262_144];

/// Where the payload of the first data block begins, behind the header and an empty table.
const PAYLOAD: u64 = 80 + 13 + 17;

/// How much of a volume is left for inode blocks.
const ROOM_FOR_INODES: usize = 300_000;

pub fn run(rounds: usize) {
    let folder = Folder::new().expect("there is a place for 640 MiB");
    let paths: Vec<PathBuf> = (0..VOLUMES).map(|at| write(&folder.0, at)).collect();
    let [mut one, mut two] = [(); 2].map(|()| Vec::new());
    let [read, check, open] = timing::best(
        rounds,
        [
            &mut || paths.iter().for_each(|path| read_file(path, &mut one)),
            &mut || paths.iter().for_each(|path| read_and_check(path, &mut two)),
            &mut || use_up(Archive::open(&paths).expect("a sound archive")),
        ],
    );
    println!(
        "{:<44}{:>10}{:>12}",
        "archive of 40 volumes of 16 MiB", "ms", "/ check"
    );
    row("read", read, check);
    row("read and check, the library's call", check, check);
    row("open", open, check);
    for (number, len) in (0..).zip(LENS) {
        let [all] = timing::best(rounds, [&mut || take_out(&paths, number, len)]);
        row(
            &format!("open, and take out 1,024 extents of {len}"),
            all,
            check,
        );
    }
    println!("a part of a file lies in every other volume, one after the other in turn\n");
}

fn row(name: &str, time: Duration, base: Duration) {
    let ratio = time.as_secs_f64() / base.as_secs_f64();
    println!("{name:<44}{:>10.1}{ratio:>12.2}", time.as_secs_f64() * 1e3);
}

/// Writes a volume; the last one has the inode blocks of all files.
fn write(folder: &Path, sequence: u64) -> PathBuf {
    let mut buf = vec![0; LIMIT];
    let previous = [u8::from(sequence > 0); 32];
    let mut writer =
        Writer::create(&mut buf, &[7; 16], sequence, &previous).expect("a header fits");
    if sequence > 0 {
        writer.append_table(0, &[]).expect("a table fits");
    }
    let fixed = writer.bookmark().offset as usize + 21;
    let payload: Vec<u8> = (0..LIMIT - fixed - ROOM_FOR_INODES)
        .map(|at| (at as u64 * 31 + sequence) as u8)
        .collect();
    writer.append_data(1, &payload).expect("a block fits");
    for (number, len) in (0..).zip(LENS) {
        let extents: Extents = (0..EXTENTS).map(|index| extent(index, len)).collect();
        let inode = Inode {
            size: EXTENTS * len,
            rest: extents.as_bytes(),
            ..Inode::regular(number)
        };
        if sequence == VOLUMES - 1 {
            writer
                .append_inode(2 + number, &inode)
                .expect("an inode fits");
        }
    }
    let path = folder.join(format!("{sequence}.vol"));
    fs::write(&path, writer.written()).expect("a volume can be written");
    path
}

/// A part of a file: the next in the next of the volumes that are used.
fn extent(index: u64, len: u64) -> Extent {
    let volume = index % USED * 2 + 1;
    let start = PAYLOAD + index / USED * len;
    Extent::once(volume, Physical(start), len, Logical(index * len))
}

fn read_file(path: &PathBuf, buffer: &mut Vec<u8>) {
    buffer.clear();
    let mut file = File::open(path).expect("a volume is there");
    file.read_to_end(buffer).expect("a volume can be read");
}

fn read_and_check(path: &PathBuf, buffer: &mut Vec<u8>) {
    read_file(path, buffer);
    assert_eq!(sys::check(black_box(buffer)).refusal, 0);
}

fn take_out(paths: &[PathBuf], number: u64, len: u64) {
    let archive = Archive::open(paths).expect("a sound archive");
    let file = archive.file(number).expect("all of the file is there");
    let mut reader = file.reader();
    let mut buf = vec![0; 65_536];
    let mut left = EXTENTS * len;
    while left > 0 {
        let len = reader.read(&mut buf).expect("the file can be read");
        black_box(&buf[..len]);
        left -= len as u64;
    }
}
