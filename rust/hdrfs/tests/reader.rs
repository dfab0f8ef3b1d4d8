//! The bytes of files in archives: read, sought in, and in chunks.

#[path = "support/set.rs"]
mod set;

use std::io::{ErrorKind, Read, Seek, SeekFrom};
use std::path::PathBuf;

use hdrfs::{Archive, Checker, Chunk, Extent, Logical, Multiplicity, Physical};
use set::{once, volume, Folder, Numbers};

/// How many bytes are held to be read again, in archives that differ in nothing else.
const CACHES: [usize; 4] = [0, 65_536, 200_000, 64 << 20];

fn archive(paths: &[PathBuf], cache: usize) -> Archive {
    let mut archive = Archive::with_cache(cache);
    let mut checker = Checker::new();
    for path in paths {
        archive.insert(checker.path(path).unwrap()).unwrap();
    }
    archive
}

/// An archive of one volume with one file, number 7, in memory.
fn with_file(size: u64, extents: impl FnOnce(Physical) -> Vec<Extent>) -> Archive {
    let bytes = volume(0, |draft| {
        let place = draft.data(b"abcdefg");
        draft.file(7, size, &extents(place));
    });
    let mut archive = Archive::new();
    archive
        .insert(Checker::new().bytes("0.vol", bytes).unwrap())
        .unwrap();
    archive
}

fn repeated(size: u64, count: u64, start: Physical, logical: u64) -> Extent {
    Extent {
        multiplicity: Multiplicity::Repeated,
        count,
        ..once(0, start, size, logical)
    }
}

/// Three volumes of several pages, and a file whose extents lie all over them, beside what it has
/// to read as.
fn scattered(numbers: &mut Numbers) -> (Vec<Vec<u8>>, Vec<u8>) {
    let mut volumes = Vec::new();
    let mut extents = Vec::new();
    let mut expected = Vec::new();
    for sequence in 0..3 {
        volumes.push(volume(sequence, |draft| {
            let payload: Vec<u8> = (0..150_000).map(|_| numbers.below(256) as u8).collect();
            let start = draft.data(&payload);
            for _ in 0..40 {
                expected.resize(expected.len() + numbers.below(3) as usize * 700, 0);
                let from = numbers.below(120_000);
                let len = 1 + numbers.below(29_000);
                let place = Physical(start.0 + from);
                let logical = expected.len() as u64;
                let part = &payload[from as usize..][..len as usize];
                let extent = if numbers.below(4) == 0 {
                    let count = 1 + numbers.below(20);
                    expected.extend(part.repeat(count as usize));
                    repeated(len, count, place, logical)
                } else {
                    expected.extend(part);
                    once(0, place, len, logical)
                };
                extents.push(Extent {
                    volume: sequence,
                    ..extent
                });
            }
            expected.resize(expected.len() + 5, 0);
            draft.file(7, expected.len() as u64, &extents);
        }));
    }
    (volumes, expected)
}

#[test]
fn a_file_reads_the_same_with_any_cache() {
    let mut numbers = Numbers(0xC0FF_EE00_C0FF_EE01);
    let (volumes, expected) = scattered(&mut numbers);
    let folder = Folder::new();
    let paths = folder.put_all(&volumes);
    for cache in CACHES {
        let archive = archive(&paths, cache);
        let file = archive.file(7).unwrap();
        let mut content = Vec::new();
        file.reader().read_to_end(&mut content).unwrap();
        assert!(content == expected, "with a cache of {cache} bytes");
    }
}

#[test]
fn a_file_reads_the_same_from_any_position() {
    let mut numbers = Numbers(0x5EE4_5EE4_5EE4_5EE4);
    let (volumes, expected) = scattered(&mut numbers);
    let folder = Folder::new();
    let archive = archive(&folder.put_all(&volumes), 200_000);
    let file = archive.file(7).unwrap();
    let mut reader = file.reader();
    for _ in 0..500 {
        let at = numbers.below(expected.len() as u64 + 100);
        let to = match numbers.below(3) {
            0 => SeekFrom::Start(at),
            1 => SeekFrom::End(at as i64 - expected.len() as i64),
            _ => SeekFrom::Current(at as i64 - reader.stream_position().unwrap() as i64),
        };
        assert_eq!(reader.seek(to).unwrap(), at);
        let mut buf = vec![9; numbers.below(20_000) as usize];
        let len = reader.read(&mut buf).unwrap();
        let rest = expected.get(at as usize..).unwrap_or(&[]);
        assert_eq!(len, rest.len().min(buf.len()));
        assert!(buf[..len] == rest[..len]);
        assert!(buf[len..].iter().all(|byte| *byte == 9));
        assert_eq!(reader.stream_position().unwrap(), at + len as u64);
    }
}

#[test]
fn chunks_are_what_the_reader_reads() {
    let mut numbers = Numbers(0x0C0D_0C0D_0C0D_0C0D);
    let (volumes, expected) = scattered(&mut numbers);
    let folder = Folder::new();
    let archive = archive(&folder.put_all(&volumes), 65_536);
    let file = archive.file(7).unwrap();
    let mut chunks = file.chunks();
    let mut content = Vec::new();
    while let Some(chunk) = chunks.next().unwrap() {
        let (Chunk::Hole { start, .. } | Chunk::Bytes { start, .. }) = chunk;
        assert_eq!(start, Logical(content.len() as u64));
        match chunk {
            Chunk::Hole { len, .. } => content.resize(content.len() + len as usize, 0),
            Chunk::Bytes { bytes, .. } => content.extend(bytes),
        }
    }
    assert!(content == expected);
    assert_eq!(chunks.next().unwrap(), None);
}

#[test]
fn a_file_without_bytes_reads_as_nothing() {
    let archive = with_file(0, |place| vec![once(0, place, 3, 0)]);
    let file = archive.file(7).unwrap();
    let mut content = Vec::new();
    assert_eq!(file.reader().read_to_end(&mut content).unwrap(), 0);
    assert_eq!(file.chunks().next().unwrap(), None);
}

#[test]
fn a_file_ends_at_its_size_even_where_an_extent_goes_on() {
    let archive = with_file(9, |place| vec![once(0, place, 5, 1), once(0, place, 5, 7)]);
    let file = archive.file(7).unwrap();
    let mut content = Vec::new();
    file.reader().read_to_end(&mut content).unwrap();
    assert_eq!(content, b"\0abcde\0ab");
}

#[test]
fn positions_outside_cannot_be_sought() {
    let archive = with_file(3, |_| Vec::new());
    let file = archive.file(7).unwrap();
    let mut reader = file.reader();
    for to in [
        SeekFrom::Current(-1),
        SeekFrom::End(-4),
        SeekFrom::End(i64::MIN),
    ] {
        assert_eq!(reader.seek(to).unwrap_err().kind(), ErrorKind::InvalidInput);
        assert_eq!(reader.stream_position().unwrap(), 0);
    }
    assert_eq!(reader.seek(SeekFrom::Start(u64::MAX)).unwrap(), u64::MAX);
    assert_eq!(reader.read(&mut [0; 10]).unwrap(), 0);
    let beyond = reader.seek(SeekFrom::Current(1)).unwrap_err();
    assert_eq!(beyond.kind(), ErrorKind::InvalidInput);
    assert_eq!(
        reader.seek(SeekFrom::Current(i64::MIN)).unwrap(),
        (1 << 63) - 1
    );
    assert_eq!(reader.read(&mut []).unwrap(), 0);
}

#[test]
fn the_largest_file_is_read() {
    // Its last position is 2^64 - 2.
    let archive = with_file(u64::MAX, |place| vec![once(0, place, 4, u64::MAX - 4)]);
    let file = archive.file(7).unwrap();
    let mut reader = file.reader();
    assert_eq!(reader.seek(SeekFrom::End(0)).unwrap(), u64::MAX);
    assert_eq!(reader.read(&mut [0; 10]).unwrap(), 0);
    reader.seek(SeekFrom::End(-6)).unwrap();
    let mut end = Vec::new();
    reader.read_to_end(&mut end).unwrap();
    assert_eq!(end, b"\0\0abcd");
    reader.seek(SeekFrom::Start(1 << 62)).unwrap();
    assert_eq!(reader.read(&mut [9; 1000]).unwrap(), 1000);
    let mut chunks = file.chunks();
    let hole = Chunk::Hole {
        start: Logical(0),
        len: u64::MAX - 4,
    };
    assert_eq!(chunks.next().unwrap(), Some(hole));
    let start = Logical(u64::MAX - 4);
    let bytes = b"abcd";
    assert_eq!(chunks.next().unwrap(), Some(Chunk::Bytes { start, bytes }));
    assert_eq!(chunks.next().unwrap(), None);
}

#[test]
fn a_file_of_more_copies_than_can_be_counted_is_read_anywhere() {
    let archive = with_file(u64::MAX, |place| {
        vec![
            repeated(1, 1 << 62, Physical(place.0 + 1), 5),
            repeated(3, 1 << 61, place, 1 << 63),
        ]
    });
    let file = archive.file(7).unwrap();
    let mut reader = file.reader();
    let mut at = |position: u64| {
        reader.seek(SeekFrom::Start(position)).unwrap();
        let mut buf = [9; 6];
        let len = reader.read(&mut buf).unwrap();
        buf[..len].to_vec()
    };
    assert_eq!(at(3), b"\0\0bbbb");
    assert_eq!(at((1 << 62) + 2), b"bbb\0\0\0");
    assert_eq!(at(1 << 61), b"bbbbbb");
    assert_eq!(at((1 << 63) - 1), b"\0abcab");
    assert_eq!(at((1 << 63) + 3_000_000_001), b"bcabca");
    assert_eq!(at(u64::MAX - 3), b"\0\0\0");
    assert_eq!(at(0), b"\0\0\0\0\0b");
}

#[test]
fn many_copies_are_read_through() {
    let count = 300_000;
    let archive = with_file(count + 7, |place| {
        vec![
            repeated(1, 100_000, place, 0),
            repeated(2, 100_000, Physical(place.0 + 1), 100_003),
        ]
    });
    let mut expected = vec![b'a'; 100_000];
    expected.extend(b"\0\0\0");
    expected.extend(b"bc".repeat(100_000));
    expected.extend([0; 4]);
    let file = archive.file(7).unwrap();
    let mut content = Vec::new();
    file.reader().read_to_end(&mut content).unwrap();
    assert!(content == expected);
    assert_eq!(file.all_runs().count(), 200_002);
}

#[test]
fn a_reader_goes_where_a_reader_is_wanted() {
    fn takes(mut reader: impl Read + Seek + Send) -> usize {
        reader.read_to_end(&mut Vec::new()).unwrap()
    }
    let archive = with_file(9, |_| Vec::new());
    assert_eq!(takes(archive.file(7).unwrap().reader()), 9);
    std::thread::scope(|scope| {
        for _ in 0..4 {
            scope.spawn(|| takes(archive.file(7).unwrap().reader()));
        }
    });
}
