//! A file of 20 million copies of one byte, each of which is a run.

use std::hint::black_box;
use std::io::Read;
use std::time::Duration;

use hdrfs::{Archive, ArchiveFile, Checker, Chunk, Extent, Extents, Inode, Logical};
use hdrfs::{Multiplicity, Physical, Writer};

use crate::timing;

const COPIES: u64 = 20_000_000;

pub fn run(rounds: usize) {
    let archive = archive();
    let file = archive.file(7).expect("the file is there");
    let [runs, reader, chunks] = timing::best(
        rounds,
        [&mut || count_runs(&file), &mut || read(&file), &mut || {
            chunks(&file)
        }],
    );
    println!(
        "{:<44}{:>10}{:>12}",
        "file of 20 million copies of a byte", "ms", "ns a run"
    );
    row("runs, one by one", runs);
    row("reader", reader);
    row("chunks", chunks);
    println!();
}

fn row(name: &str, time: Duration) {
    let seconds = time.as_secs_f64();
    let each = seconds * 1e9 / COPIES as f64;
    println!("{name:<44}{:>10.1}{each:>12.1}", seconds * 1e3);
}

fn archive() -> Archive {
    let mut buf = vec![0; 1000];
    let mut writer = Writer::create(&mut buf, &[7; 16], 0, &[0; 32]).expect("a header fits");
    writer.append_data(1, b"5").expect("a block fits");
    let extents = Extents::new().push(Extent {
        multiplicity: Multiplicity::Repeated,
        count: COPIES,
        ..Extent::once(0, Physical(97), 1, Logical(0))
    });
    let inode = Inode {
        size: COPIES,
        rest: extents.as_bytes(),
        ..Inode::regular(7)
    };
    writer.append_inode(2, &inode).expect("an inode fits");
    let volume = writer.written().to_vec();
    let mut archive = Archive::new();
    let member = Checker::new().bytes("copies", volume);
    archive
        .insert(member.expect("a sound volume"))
        .expect("one volume is a set");
    archive
}

fn count_runs(file: &ArchiveFile<'_>) {
    let mut count = 0;
    for run in file.all_runs() {
        black_box(run.expect("nothing is refused"));
        count += 1;
    }
    assert_eq!(count, COPIES);
}

fn read(file: &ArchiveFile<'_>) {
    let mut reader = file.reader();
    let mut buf = vec![0; 65_536];
    let mut count = 0;
    loop {
        let len = reader.read(&mut buf).expect("the file can be read");
        if len == 0 {
            break;
        }
        black_box(&buf[..len]);
        count += len as u64;
    }
    assert_eq!(count, COPIES);
}

fn chunks(file: &ArchiveFile<'_>) {
    let mut chunks = file.chunks();
    let mut count = 0;
    while let Some(chunk) = chunks.next().expect("the file can be read") {
        let Chunk::Bytes { bytes, .. } = chunk else {
            panic!("there is no hole");
        };
        black_box(bytes);
        count += bytes.len() as u64;
    }
    assert_eq!(count, COPIES);
}
