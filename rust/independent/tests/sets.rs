//! Sets of volumes, put together by hand. Every offset is worked out on
//! paper: a header takes 80 bytes, a table without links 13, a data block
//! 21 and its payload, an inode 75 and 57 for each extent.

mod common;

use common::*;
use independent::{set_faults, Beyond, FileRefusal, Lacking, LastLink, Refusal, Set, SetFault};

/// An inode block with another number than 5.
fn numbered(number: u64, image: Vec<u8>) -> Vec<u8> {
    changed(&image, 1, &number.to_le_bytes())
}

/// A link or unlink whose child is another one than 5.
fn of_child(child: u64, image: Vec<u8>) -> Vec<u8> {
    changed(&image, 9, &child.to_le_bytes())
}

/// A volume with another file system ID.
fn foreign(mut bytes: Vec<u8>) -> Vec<u8> {
    let header = changed(&bytes[..80], 18 + 15, &[8]);
    bytes[..80].copy_from_slice(&header);
    bytes
}

fn regular(time: u64, size: u64, list: &[Fields]) -> Vec<u8> {
    inode(time, REGULAR, size, &extents(list))
}

/// `abcdefghij` at 97, and inode 5 at 111 that is the whole of it.
fn volume_0() -> Vec<u8> {
    let whole = regular(2, 10, &[(0, 97, 10, 67, 1, 0, 0, 0)]);
    volume(0, &[data(1, b"abcdefghij"), whole])
}

/// `XYZ` at 110, and inode 5 at 117 with bytes of both volumes. Its time is
/// earlier than that in volume 0.
fn volume_1() -> Vec<u8> {
    let list = [(0, 99, 2, 67, 2, 0, 1, 9), (1, 110, 3, 82, 3, 1, 1, 0)];
    let both = regular(1, 14, &list);
    volume(1, &[table(0, b""), data(0, b"XYZ"), both])
}

fn set<'a>(volumes: &[&'a [u8]]) -> Set<'a> {
    Set::new(volumes).expect("a set")
}

/// Where the current inode block of a number stands: volume, number of the
/// block there, offset.
fn stands(set: &Set<'_>, number: u64) -> (u64, u64, u64) {
    let inode = set.inodes()[&number];
    (inode.volume, inode.block, inode.offset)
}

#[test]
fn the_highest_volume_has_the_current_inode() {
    let (zero, one) = (volume_0(), volume_1());
    assert_eq!((zero.len(), one.len()), (243, 306));
    for given in [[&zero[..], &one[..]], [&one[..], &zero[..]]] {
        let set = set(&given);
        assert_eq!(stands(&set, 5), (1, 2, 117));
        assert_eq!(set.inodes()[&5].stat.size, 14);
        assert_eq!(set.inodes()[&5].stat.time, 1);
        assert_eq!(set.id(), [7; 16]);
        assert_eq!(set.missing(), []);
        assert_eq!(set.volumes().keys().collect::<Vec<_>>(), [&0, &1]);
        let file = set.file(5).expect("a file");
        assert_eq!(file.bytes(0, TOP), b"YZXYZXY\0\0cde\0\0");
    }
    let alone = set(&[&zero]);
    assert_eq!(stands(&alone, 5), (0, 1, 111));
    assert_eq!(alone.file(5).expect("a file").bytes(0, TOP), b"abcdefghij");
}

#[test]
fn the_last_block_of_a_volume_has_the_current_inode() {
    // Its place decides, also where all times are the same.
    for times in [[1, 2, 3, 4, 5], [7; 5]] {
        let blocks = [
            regular(times[0], 3, &[]),
            numbered(6, regular(times[1], 4, &[])),
            regular(times[2], 1, &[]),
            inode(times[3], FOLDER, 70, b""),
            numbered(6, inode(times[4], SYMBOLIC, 72, b"up")),
        ];
        let zero = volume(0, &blocks);
        let set = set(&[&zero]);
        assert_eq!(stands(&set, 5), (0, 3, 80 + 3 * 75));
        assert_eq!(stands(&set, 6), (0, 4, 80 + 4 * 75));
        assert_eq!(set.inodes().len(), 2);
        assert_eq!(set.inodes()[&6].variable.bytes, b"up");
        assert_eq!(set.file(5).unwrap_err(), FileRefusal::NotRegular);
        assert_eq!(set.file(6).unwrap_err().refusal(), Some(Refusal::of(15)));
        assert_eq!(set.file(7).unwrap_err(), FileRefusal::NoInode);
        assert_eq!(set.file(7).unwrap_err().refusal(), None);
    }
}

#[test]
fn bytes_and_runs_position_by_position() {
    let (zero, one) = (volume_0(), volume_1());
    let set = set(&[&zero, &one]);
    let file = set.file(5).expect("a file");
    assert_eq!(file.size(), 14);
    assert_eq!(file.byte(0), Some(b'Y'));
    assert_eq!(file.byte(8), Some(0));
    assert_eq!(file.byte(11), Some(b'e'));
    assert_eq!(file.byte(13), Some(0));
    assert_eq!(file.byte(14), None);
    assert_eq!(file.bytes(6, 10), b"Y\0\0c");
    assert_eq!(file.bytes(12, 90), [0, 0]);
    assert_eq!(file.bytes(9, 9), b"");
    assert_eq!(file.bytes(14, TOP), b"");
    let rows = [
        [0, 2, 1, 1, 111],
        [2, 3, 1, 1, 110],
        [5, 2, 1, 1, 110],
        [7, 2, 0, 0, 0],
        [9, 3, 1, 0, 99],
        [12, 2, 0, 0, 0],
    ];
    assert_eq!(file.runs(0, TOP), rows);
    let inner = [[6, 1, 1, 1, 111], [7, 2, 0, 0, 0], [9, 1, 1, 0, 99]];
    assert_eq!(file.runs(6, 10), inner);
    assert_eq!(file.runs(10, 6), [[0; 5]; 0]);
}

#[test]
fn the_size_decides_the_end() {
    let reaches_on = regular(2, 4, &[(0, 97, 10, 67, 1, 0, 0, 1)]);
    let nothing = numbered(6, regular(3, 0, &[(0, 97, 10, 67, 1, 0, 0, 0)]));
    let hole = numbered(7, regular(4, 5, &[]));
    let zero = volume(0, &[data(1, b"abcdefghij"), reaches_on, nothing, hole]);
    let set = set(&[&zero]);
    let bytes = |number| set.file(number).expect("a file").bytes(0, TOP);
    assert_eq!(bytes(5), b"\0abc");
    assert_eq!(bytes(6), b"");
    assert_eq!(bytes(7), [0; 5]);
}

#[test]
fn far_positions() {
    let list = [
        (0, 97, 2, 82, 1 << 62, 1, 0, 0),
        (0, 96, 2, 67, 1, 0, 0, TOP - 2),
    ];
    let zero = volume(0, &[data(1, b"abcdefghij"), regular(2, TOP, &list)]);
    let set = set(&[&zero]);
    let file = set.file(5).expect("a file");
    // The copies end at 2^63 - 1, after a whole one.
    let end = (1 << 63) - 1;
    assert_eq!(file.bytes(0, 3), b"bab");
    assert_eq!(file.bytes(end - 2, end + 1), b"ab\0");
    // The byte before the payload is the last of its length, which is 0.
    assert_eq!(file.bytes(TOP - 4, TOP), b"\0\0\0a");
    assert_eq!(
        file.runs(TOP - 4, TOP),
        [[TOP - 4, 2, 0, 0, 0], [TOP - 2, 2, 1, 0, 96]]
    );
}

fn lacking(volumes: &[u64], unlisted: &[u64], beyond: &[Beyond]) -> FileRefusal {
    FileRefusal::NotThere(Lacking {
        volumes: volumes.iter().copied().collect(),
        unlisted: unlisted.iter().copied().collect(),
        beyond: beyond.to_vec(),
    })
}

#[test]
fn what_is_lacking_is_told() {
    let list = [
        (3, 0, 1, 67, 1, 0, 0, 0),
        // Keeps nothing, so its volume is not needed.
        (8, 0, 9, 67, 1, 4, 5, 0),
        (9, 0, 1, 82, 1, 0, 0, 1),
        // One byte beyond 509, exactly to it, and the same with copies.
        (1, 500, 5, 67, 2, 9, 0, 2),
        (1, 499, 5, 67, 2, 9, 0, 3),
        (1, 505, 5, 82, 2, 9, 0, 4),
        (1, 504, 5, 82, 2, 9, 0, 5),
        // Above the size, and needed still.
        (3, 7, 1, 67, 1, 0, 0, 90),
    ];
    let zero = volume(0, &[regular(1, 6, &list)]);
    let one = volume(1, &[table(0, b""), data(1, &[1; 395])]);
    assert_eq!(one.len(), 509);
    let beyond = |index| Beyond {
        index,
        volume: 1,
        end: 510,
        length: 509,
    };
    let refusal = set(&[&zero, &one]).file(5).unwrap_err();
    assert_eq!(refusal, lacking(&[3, 9], &[], &[beyond(3), beyond(5)]));
    assert_eq!(refusal.refusal(), Some(Refusal::of(16)));
    let refusal = set(&[&zero]).file(5).unwrap_err();
    assert_eq!(refusal, lacking(&[1, 3, 9], &[], &[]));
}

/// A lookup is lent 4,096 lengths at most, so no file reaches volume 4,096.
#[test]
fn volumes_from_4096_on_are_out_of_reach() {
    let list = [
        (4_095, 80, 1, 67, 1, 0, 0, 0),
        (4_096, 80, 1, 67, 1, 0, 0, 1),
    ];
    let last = volume(4_095, &[table(0, b""), regular(1, 1, &list[..1])]);
    let next = volume(4_096, &[table(0, b""), regular(1, 2, &list)]);
    // The byte at 80 is the ID of the table.
    let alone = set(&[&last]);
    assert_eq!(alone.file(5).expect("a file").bytes(0, TOP), [8]);
    let both = set(&[&next, &last]);
    assert_eq!(both.file(5).unwrap_err(), lacking(&[], &[4_096], &[]));
    let above = set(&[&next]);
    assert_eq!(above.file(5).unwrap_err(), lacking(&[4_095], &[4_096], &[]));
}

#[test]
fn foreign_and_double_volumes() {
    let (zero, one) = (volume_0(), volume_1());
    assert_eq!(set_faults(&[&zero, &one]), []);
    assert_eq!(set_faults(&[]), []);
    assert!(Set::new(&[]).is_err());

    let other = foreign(volume_1());
    let apart = SetFault::Foreign {
        first: 0,
        second: 1,
    };
    assert_eq!(set_faults(&[&other, &zero]), [apart]);
    let twice = SetFault::Double {
        first: 0,
        second: 1,
        sequence: 1,
    };
    assert_eq!(set_faults(&[&one, &one]), [twice]);
    assert_eq!(set_faults(&[&one, &other]), [apart, twice]);
    assert!(Set::new(&[&one, &other]).is_err());
}

/// Beside a refused volume only the accepted ones are compared.
#[test]
fn refused_volumes() {
    let (zero, other) = (volume_0(), foreign(volume_1()));
    let mut broken = volume_0();
    broken[242] ^= 1;
    let refused = SetFault::Refused {
        place: 0,
        refusal: Refusal::of(5),
        offset: 111,
        blocks: 1,
    };
    assert_eq!(set_faults(&[&broken, &zero]), [refused]);
    let apart = SetFault::Foreign {
        first: 1,
        second: 2,
    };
    assert_eq!(set_faults(&[&broken, &zero, &other]), [refused, apart]);
    let cut = SetFault::Refused {
        place: 1,
        refusal: Refusal::of(2),
        offset: 0,
        blocks: 0,
    };
    assert_eq!(set_faults(&[&other, &zero[..79]]), [cut]);
}

#[test]
fn missing_numbers() {
    let missing = |sequences: &[u64]| {
        let volumes: Vec<Vec<u8>> = sequences
            .iter()
            .map(|&sequence| match sequence {
                0 => volume(0, &[]),
                _ => volume(sequence, &[table(0, b"")]),
            })
            .collect();
        let lent: Vec<&[u8]> = volumes.iter().map(Vec::as_slice).collect();
        set(&lent).missing()
    };
    assert_eq!(missing(&[0]), []);
    assert_eq!(missing(&[2, 1, 0]), []);
    assert_eq!(missing(&[2]), [0..=1]);
    assert_eq!(missing(&[7, 0, 4, 3]), [1..=2, 5..=6]);
    assert_eq!(missing(&[TOP, 0]), [1..=TOP - 1]);
    assert_eq!(missing(&[TOP - 1, TOP]), [0..=TOP - 2]);
}

/// Whether the last link of inode 5 and that of inode 6 were taken away.
fn taken_away(volumes: &[Vec<u8>]) -> [Option<bool>; 2] {
    let lent: Vec<&[u8]> = volumes.iter().map(Vec::as_slice).collect();
    let set = set(&lent);
    [5, 6].map(|number| set.inodes()[&number].last_link.map(|link| link.taken_away))
}

#[test]
fn the_last_link_decides() {
    let inodes = [regular(1, 0, &[]), numbered(6, regular(2, 0, &[]))];
    let first = |more: &[Vec<u8>]| volume(0, &[&inodes, more].concat());
    let (made, away) = (Some(false), Some(true));
    assert_eq!(taken_away(&[first(&[])]), [None, None]);
    let unlinked = first(&[link(2, 3, b"n"), link(3, 4, b"n")]);
    assert_eq!(taken_away(std::slice::from_ref(&unlinked)), [away, None]);
    let linked = first(&[
        link(3, 3, b"n"),
        of_child(6, link(3, 4, b"")),
        link(2, 5, b"m"),
    ]);
    assert_eq!(taken_away(std::slice::from_ref(&linked)), [made, away]);

    // Of those at one time, the one that stands last.
    let unlinked_at_once = first(&[link(2, 3, b"n"), link(3, 3, b"n")]);
    assert_eq!(taken_away(&[unlinked_at_once]), [away, None]);
    let linked_at_once = first(&[link(3, 3, b"n"), link(2, 3, b"n")]);
    assert_eq!(taken_away(&[linked_at_once]), [made, None]);

    // A higher volume decides, whatever its times; a parent is no child.
    let later = volume(
        1,
        &[
            table(0, b""),
            of_child(6, link(2, 0, b"x")),
            link(3, 1, b"m"),
        ],
    );
    assert_eq!(taken_away(&[later, linked.clone()]), [away, made]);
    let by_parent = volume(1, &[table(1, &table_link(1, 6, b"up"))]);
    assert_eq!(taken_away(&[linked.clone(), by_parent]), [made, away]);

    // Links of a table stand before the blocks of their volume.
    let links = [table_link(5, 1, b"a"), table_link(6, 1, b"b")].concat();
    let with_table = volume(1, &[table(2, &links)]);
    assert_eq!(taken_away(&[unlinked.clone(), with_table]), [made, made]);
    let and_away = volume(1, &[table(2, &links), link(3, 0, b"a")]);
    assert_eq!(taken_away(&[and_away, unlinked]), [away, made]);
}

#[test]
fn the_last_link_has_a_name() {
    let links = [table_link(5, 8, b"b"), table_link(5, 9, b"a")].concat();
    let one = volume(1, &[table(2, &links), regular(1, 0, &[])]);
    let by_table = LastLink {
        taken_away: false,
        in_table: true,
        parent: 9,
        name: b"a",
    };
    assert_eq!(set(&[&one]).inodes()[&5].last_link, Some(by_table));
    let two = volume(2, &[table(0, b""), link(3, 0, "ä".as_bytes())]);
    let by_block = LastLink {
        taken_away: true,
        in_table: false,
        parent: 1,
        name: b"\xc3\xa4",
    };
    assert_eq!(set(&[&one, &two]).inodes()[&5].last_link, Some(by_block));
}
