//! Sets of volumes: which belong together, and which inodes are current.

#[path = "support/set.rs"]
mod set;

use std::io::Read;

use hdrfs::{Archive, ArchiveError, Checker, FileType, Inode, Physical, Refusal, Stored};
use set::{once, volume, volume_of, Folder, ID};

/// The content of a file.
fn content(archive: &Archive, number: u64) -> Vec<u8> {
    let mut content = Vec::new();
    let file = archive.file(number).unwrap();
    file.reader().read_to_end(&mut content).unwrap();
    content
}

/// An archive of volumes that are held in memory, named by their places.
fn in_memory(volumes: &[Vec<u8>]) -> Result<Archive, ArchiveError> {
    let mut archive = Archive::new();
    let mut checker = Checker::new();
    for (place, bytes) in volumes.iter().enumerate() {
        archive.insert(checker.bytes(format!("{place}"), bytes.clone())?)?;
    }
    Ok(archive)
}

/// Three volumes; file 7 grows in each, and takes its bytes from all volumes up to then.
fn growing() -> Vec<Vec<u8>> {
    let mut extents = Vec::new();
    let mut volumes = Vec::new();
    for sequence in 0..3 {
        volumes.push(volume(sequence, |draft| {
            let line = format!("year {sequence}\n");
            let place = draft.data(line.as_bytes());
            extents.push(once(sequence, place, 7, 7 * sequence));
            // The first is superseded in the same volume.
            draft.file(7, 1, &[]);
            draft.file(7, 7 * (sequence + 1), &extents);
        }));
    }
    volumes
}

#[test]
fn a_file_comes_out_of_several_volumes_in_any_order() {
    let volumes = growing();
    let folder = Folder::new();
    let paths = folder.put_all(&volumes);
    for order in [
        [0, 1, 2],
        [0, 2, 1],
        [1, 0, 2],
        [1, 2, 0],
        [2, 0, 1],
        [2, 1, 0],
    ] {
        let archive = Archive::open(order.map(|place: usize| &paths[place])).unwrap();
        assert_eq!(content(&archive, 7), b"year 0\nyear 1\nyear 2\n");
        let inode = archive.inode(7).unwrap();
        assert_eq!((inode.volume, inode.block), (2, 3));
        assert_eq!((inode.size, inode.time), (21, 3));
        let sequences: Vec<u64> = archive.volumes().map(|volume| volume.sequence()).collect();
        assert_eq!(sequences, [0, 1, 2]);
        let held = in_memory(&order.map(|place| volumes[place].clone())).unwrap();
        assert_eq!(content(&held, 7), b"year 0\nyear 1\nyear 2\n");
        assert_eq!(held.inode(7), archive.inode(7));
    }
}

#[test]
fn the_gauge_of_the_demo_comes_out_as_expected() {
    let folder = concat!(env!("CARGO_MANIFEST_DIR"), "/tests/gauge/");
    let paths = [2, 0, 1].map(|number| format!("{folder}{number}.vol"));
    let archive = Archive::open(paths).unwrap();
    let expected = include_bytes!("../../../tests/gauge/expected.csv");
    assert_eq!(content(&archive, 7), expected);
}

#[test]
fn volumes_of_two_file_systems_are_no_set() {
    let folder = Folder::new();
    let first = folder.put("first.vol", &volume(0, |_| ()));
    let second = folder.put("second.vol", &volume_of([9; 16], 1, |_| ()));
    let error = Archive::open([&first, &second]).unwrap_err();
    let ArchiveError::TwoFileSystems {
        first: one,
        second: two,
    } = &error
    else {
        panic!("{error}");
    };
    assert_eq!((one, two), (&first, &second));
    let line = error.to_string();
    assert!(
        line.contains("first.vol") && line.contains("second.vol"),
        "{line}"
    );
}

#[test]
fn a_sequence_number_stands_for_one_volume() {
    let volumes = [volume(4, |_| ()), volume(4, |draft| draft.data(b"other"))];
    let error = in_memory(&volumes).unwrap_err();
    assert!(
        matches!(&error, ArchiveError::Twice { sequence: 4, first, second }
            if first.as_os_str() == "0" && second.as_os_str() == "1"),
        "{error}"
    );
}

#[test]
fn a_refused_volume_says_how_far_it_was_sound() {
    let mut bytes = volume(0, |draft| {
        draft.data(b"sound");
        draft.data(b"damaged");
    });
    let last = bytes.len() - 5;
    bytes[last] ^= 1;
    let error = in_memory(&[bytes]).unwrap_err();
    let ArchiveError::Refused {
        refusal, blocks, ..
    } = error
    else {
        panic!("{error}");
    };
    let second = Refusal::new(5, 106).with_block(Some(1));
    assert_eq!((refusal, blocks), (second, Some(1)));
}

#[test]
fn a_volume_that_is_not_taken_changes_nothing() {
    let mut archive = in_memory(&[volume(0, |draft| draft.file(7, 0, &[]))]).unwrap();
    let foreign = volume_of([9; 16], 1, |draft| draft.file(8, 0, &[]));
    let double = volume(0, |draft| draft.file(9, 0, &[]));
    for bytes in [foreign, double] {
        let member = Checker::new().bytes("other", bytes).unwrap();
        assert!(archive.insert(member).is_err());
        assert_eq!(archive.volumes().count(), 1);
        let numbers: Vec<u64> = archive.inodes().map(|inode| inode.number).collect();
        assert_eq!(numbers, [7]);
        assert_eq!(archive.lengths().as_bytes().len(), 8);
    }
}

#[test]
fn gaps_are_told() {
    let at = |sequences: &[u64]| {
        let volumes: Vec<Vec<u8>> = sequences.iter().map(|at| volume(*at, |_| ())).collect();
        let archive = in_memory(&volumes).unwrap();
        let gaps: Vec<_> = archive.gaps().collect();
        gaps
    };
    assert_eq!(at(&[]), []);
    assert_eq!(at(&[0]), []);
    assert_eq!(at(&[2, 0, 1]), []);
    assert_eq!(at(&[1]), [0..=0]);
    assert_eq!(at(&[6, 0, 2]), [1..=1, 3..=5]);
    assert_eq!(at(&[u64::MAX, 0]), [1..=u64::MAX - 1]);
    assert_eq!(at(&[u64::MAX, u64::MAX - 1]), [0..=u64::MAX - 2]);
}

#[test]
fn the_last_block_in_the_highest_volume_is_current() {
    let sized = |number, size| Inode {
        size,
        ..Inode::regular(number)
    };
    let volumes = [
        volume(0, |draft| {
            draft.inode(&sized(7, 1));
            draft.inode(&sized(8, 2));
        }),
        volume(3, |draft| {
            draft.inode(&sized(7, 3));
            draft.inode(&sized(9, 4));
            draft.inode(&sized(7, 5));
        }),
        volume(2, |draft| {
            draft.inode(&sized(7, 6));
            draft.inode(&sized(9, 7));
            draft.inode(&sized(10, 8));
        }),
    ];
    let archive = in_memory(&volumes).unwrap();
    let found: Vec<_> = archive
        .inodes()
        .map(|inode| (inode.number, inode.volume, inode.size, inode.time))
        .collect();
    assert_eq!(
        found,
        [(7, 3, 5, 3), (8, 0, 2, 2), (9, 3, 4, 2), (10, 2, 8, 3)]
    );
}

/// Of blocks at one time the last is current: its place decides, and not its time.
#[test]
fn blocks_at_one_time_keep_their_order() {
    let archive = in_memory(&[volume(0, |draft| {
        draft.at_one_time();
        draft.link(7, "first");
        draft.file(7, 1, &[]);
        draft.file(8, 2, &[]);
        draft.unlink(8, "gone");
        draft.file(7, 3, &[]);
        draft.unlink(7, "first");
        draft.link(7, "second");
    })])
    .unwrap();
    let inode = |number| archive.inode(number).unwrap();
    assert_eq!((inode(7).size, inode(7).time), (3, 0));
    assert_eq!((inode(8).size, inode(8).time), (2, 0));
    assert_eq!((inode(7).unlinked, inode(8).unlinked), (false, true));
    assert_eq!(archive.last_link(7).unwrap().name, "second");
}

#[test]
fn every_kind_of_inode_is_told() {
    let archive = in_memory(&[volume(0, |draft| {
        let target = "gauge.csv";
        let inode = |number, mode, rest: &'static str| Inode {
            mode,
            uid: 1,
            gid: 2,
            atime: 3,
            mtime: 4,
            ctime: 5,
            btime: 6,
            size: 70 + rest.len() as u64,
            rest: rest.as_bytes(),
            ..Inode::regular(number)
        };
        draft.inode(&inode(1, 0o040_755, ""));
        draft.inode(&inode(2, 0o120_777, target));
    })])
    .unwrap();
    let [folder, link] = [1, 2].map(|number| archive.inode(number).unwrap());
    assert_eq!(folder.file_type(), FileType::Folder);
    assert_eq!((folder.mode, folder.uid, folder.gid), (0o040_755, 1, 2));
    assert_eq!((folder.atime, folder.mtime), (3, 4));
    assert_eq!((folder.ctime, folder.btime), (5, 6));
    assert_eq!(link.file_type(), FileType::SymbolicLink);
    assert_eq!(
        archive.block(2).unwrap().inode().target(),
        Some("gauge.csv")
    );
    assert_eq!(archive.block(1).unwrap().inode().target(), None);
    let error = archive.file(1).unwrap_err();
    let ArchiveError::Refused { refusal, .. } = error else {
        panic!("{error}");
    };
    let first = Refusal::new(15, folder.offset).with_block(Some(0));
    assert_eq!(refusal, first);
    let error = archive.file(3).unwrap_err();
    assert!(matches!(error, ArchiveError::NoSuchInode { number: 3 }));
}

#[test]
fn what_a_header_says_is_told() {
    let archive = in_memory(&[volume(1, |_| ())]).unwrap();
    let member = archive.volume(1).unwrap();
    assert_eq!((member.id(), member.previous()), (ID, [1; 32]));
    assert_eq!((member.len(), member.block_count()), (93, 1));
    assert_eq!(archive.id(), Some(ID));
    assert_eq!(archive.lengths().get(1), 93);
    assert_eq!(Archive::new().id(), None);
}

#[test]
fn what_is_missing_is_told_apart() {
    let volumes = [
        volume(0, |draft| {
            let place = draft.data(b"1,5");
            let extents = [
                once(5, place, 3, 0),
                once(0, place, 3, 3),
                once(2, place, 1, 6),
                once(0, place, 1 << 40, 1000),
                // Keeps nothing, so that its volume is not needed.
                once(9, place, 0, 1 << 50),
                once(5, place, 1, 9),
                once(1, place, 9, 100),
            ];
            draft.file(7, 10, &extents);
        }),
        volume(1, |_| ()),
    ];
    let archive = in_memory(&volumes).unwrap();
    let error = archive.file(7).unwrap_err();
    let ArchiveError::Missing(missing) = &error else {
        panic!("{error}");
    };
    assert_eq!((missing.inode, &missing.volumes[..]), (7, &[2, 5][..]));
    let short: Vec<_> = missing
        .short
        .iter()
        .map(|short| (short.index, short.extent.volume, short.volume_len))
        .collect();
    assert_eq!(short, [(3, 0, volumes[0].len() as u64), (6, 1, 93)]);
    let line = error.to_string();
    assert!(
        line.contains("volumes 2, 5 are needed and were not given; extent 3"),
        "{line}"
    );
    assert!(
        line.contains("extent 6 at 97 of volume 1 reaches beyond its 93 bytes"),
        "{line}"
    );
}

#[test]
fn a_long_list_of_what_is_missing_is_cut() {
    let extents: Vec<_> = (0..20)
        .map(|number| once(100 - number, Physical(97), 1, number))
        .collect();
    let archive = in_memory(&[volume(0, |draft| draft.file(7, 10, &extents))]).unwrap();
    let line = archive.file(7).unwrap_err().to_string();
    assert_eq!(
        line,
        "inode 7: volumes 81, 82, 83, 84, 85, 86, 87, 88 and 12 more are needed and were not given"
    );
    let one = in_memory(&[volume(0, |draft| draft.file(7, 10, &extents[..1]))]).unwrap();
    let line = one.file(7).unwrap_err().to_string();
    assert_eq!(line, "inode 7: volume 100 is needed and was not given");
}

#[test]
fn a_volume_above_4095_has_inodes_and_no_files() {
    let volumes = [
        volume(0, |draft| draft.data(b"1,5")),
        volume(4096, |draft| {
            let place = draft.data(b"1,5");
            draft.file(7, 3, &[once(0, place, 3, 0)]);
            draft.file(8, 3, &[once(4096, place, 3, 0)])
        }),
    ];
    let archive = in_memory(&volumes).unwrap();
    assert_eq!(archive.inode(7).unwrap().volume, 4096);
    let line = archive.file(8).unwrap_err().to_string();
    let place = 80 + 13 + 17;
    let expected = format!(
        "inode 8: extent 0 at {place} of volume 4096 names a volume above 4095, which no file can \
         be stored in"
    );
    assert_eq!(line, expected);
}

#[test]
fn an_empty_buffer_is_refused_where_a_longer_one_would_have_no_volume_or_begin_beyond_it() {
    let bytes = volume(1, |draft| draft.data(b"1,5"));
    let end = bytes.len() as u64;
    let archive = in_memory(&[bytes]).unwrap();
    let read = |volume, offset, len| {
        let offset = Physical(offset);
        archive.read_at(Stored { volume, offset }, &mut vec![0; len])
    };
    for offset in [0, 97, end] {
        read(1, offset, 0).unwrap();
    }
    for offset in [end + 1, u64::MAX] {
        let [empty, longer] = [0, 1].map(|len| read(1, offset, len).unwrap_err().to_string());
        assert_eq!(empty, longer);
        assert_eq!(empty, format!("0: {}", Refusal::new(16, offset)));
    }
    for volume in [0, 2, u64::MAX] {
        let error = read(volume, 0, 0).unwrap_err();
        assert!(
            matches!(error, ArchiveError::NoVolume { sequence } if sequence == volume),
            "{error}"
        );
    }
}
