//! How many bytes are kept of a volume that ends within a block, and what
//! other volumes are refused with.

mod common;

use common::torn::{every_kind, small_table, tried};
use common::*;
use independent::*;

/// The sample volume: the file system ID is zeros, and the time is 7.
fn sample_v() -> Vec<u8> {
    [header_with([0; 16], 0, [0; 32]), data(7, b"1,5")].concat()
}

/// The same with these bytes behind it.
fn behind_v(bytes: &[u8]) -> Vec<u8> {
    [&sample_v()[..], bytes].concat()
}

/// What the check says, and what repair says by every form of the checksum.
fn expect(volume: &[u8], verdict: Verdict, answer: Result<u64, Refusal>) {
    assert_eq!(check(volume), verdict, "{}", hex(volume));
    assert_eq!(repair(volume), answer, "{}", hex(volume));
    assert_eq!(repair_with(volume, crc::bits), answer);
    assert_eq!(repair_with(volume, crc::table), answer);
    assert_eq!(tried(volume), answer, "{}", hex(volume));
    assert!(answer.is_err() || longest_accepted(volume) == answer.ok());
}

/// A volume that ends within the block behind V.
fn expect_v_kept(volume: &[u8]) {
    expect(volume, refused(2, 104, 1), Ok(104));
}

#[test]
fn data_behind_v() {
    let block = data(8, b"1,5");
    for length in 1..=23 {
        expect_v_kept(&behind_v(&block[..length]));
    }
    let whole = behind_v(&block);
    expect(&whole, accepted(0, 2, 128, Some(8)), Ok(128));
    expect(&sample_v(), accepted(0, 1, 104, Some(7)), Ok(104));
}

#[test]
fn every_kind_behind_v() {
    let kinds = every_kind(8);
    let lengths = kinds.each_ref().map(Vec::len);
    assert_eq!(lengths, [132, 80, 75, 36, 32, 29, 26, 24, 20]);
    for block in kinds {
        for length in 1..block.len() {
            expect_v_kept(&behind_v(&block[..length]));
        }
        let end = 104 + block.len() as u64;
        expect(&behind_v(&block), accepted(0, 2, end, Some(8)), Ok(end));
    }
}

/// Behind a header, behind a table, and behind every other block.
#[test]
fn every_kind_behind_every_other() {
    let mut starts = vec![header(0), [header(1), small_table()].concat()];
    for block in every_kind(7) {
        starts.push([header(0), block].concat());
    }
    for start in starts {
        let Verdict::Accepted { blocks, .. } = check(&start) else {
            panic!("{}", hex(&start));
        };
        let end = start.len() as u64;
        for block in every_kind(8) {
            for length in 1..block.len() {
                let cut = [&start[..], &block[..length]].concat();
                expect(&cut, refused(2, end, blocks), Ok(end));
            }
        }
    }
}

/// What an append wrote, cut anywhere.
#[test]
fn every_append_to_v() {
    let end = mark(104, false, Some(7)).numbered(1);
    for append in APPENDS {
        let mut buffer = behind_v(&[0xEE; 99]);
        let next = append(&mut buffer, end, 7).expect("an accepted append");
        for length in 105..next.offset {
            expect_v_kept(&buffer[..length as usize]);
        }
        let whole = &buffer[..next.offset as usize];
        expect(whole, accepted(0, 2, next.offset, Some(7)), Ok(next.offset));
    }
}

#[test]
fn headers_cut_anywhere() {
    for sequence in [0, 1, TOP] {
        for length in 0..80 {
            let cut = &header(sequence)[..length];
            expect(cut, refused(2, 0, 0), no(2));
            assert_eq!(longest_accepted(cut), None);
        }
    }
    expect(&header(0), accepted(0, 0, 80, None), Ok(80));
}

#[test]
fn tables_cut_anywhere() {
    let links = [table_link(5, 1, b"gauge"), table_link(6, 1, b"")].concat();
    assert_eq!(small_table().len(), 32);
    for table in [small_table(), table(0, b""), table(2, &links)] {
        let whole = [header(1), table].concat();
        for length in 80..whole.len() {
            let cut = &whole[..length];
            expect(cut, refused(2, 80, 0), no(2));
            assert_eq!(longest_accepted(cut), None);
        }
        let end = whole.len() as u64;
        expect(&whole, accepted(1, 1, end, None), Ok(end));
    }
}

#[test]
fn five_bytes_behind_a_table() {
    let start = [header(1), small_table()].concat();
    let cut = [&start[..], &data(1, b"1,5")[..5]].concat();
    expect(&cut, refused(2, 112, 1), Ok(112));
}

/// One byte behind a header, behind V and where a table is due.
#[test]
fn every_id_alone() {
    for id in 0..=255 {
        let (free, due) = match id {
            1..=7 => (2, 8),
            8 => (8, 2),
            _ => (7, 7),
        };
        let kept = |end| if free == 2 { Ok(end) } else { no(free) };
        let behind_header = [header(0), vec![id]].concat();
        expect(&behind_header, refused(free, 80, 0), kept(80));
        expect(&behind_v(&[id]), refused(free, 104, 1), kept(104));
        let for_table = [header(1), vec![id]].concat();
        expect(&for_table, refused(due, 80, 0), no(due));
    }
}

#[test]
fn zeros_are_not_taken_off() {
    for many in 1..60 {
        let volume = behind_v(&vec![0; many]);
        expect(&volume, refused(7, 104, 1), no(7));
        assert_eq!(longest_accepted(&volume), Some(104));
    }
}

#[test]
fn a_damaged_payload() {
    let mut damaged = sample_v();
    damaged[97] ^= 1;
    expect(&damaged, refused(5, 80, 0), no(5));
    // What ends too early behind it is not the first fault.
    let cut = [&damaged[..], &data(8, b"1,5")[..9]].concat();
    expect(&cut, refused(5, 80, 0), no(5));
    assert_eq!(longest_accepted(&cut), Some(80));
}

/// Fixed fields alone, with lengths that no volume has room for.
#[test]
fn the_longest_lengths() {
    let mut fields = data(8, b"")[..17].to_vec();
    for n in [0, 1, 1 << 32, 1 << 63, TOP - 20, TOP - 16, TOP - 3, TOP] {
        fields[9..].copy_from_slice(&n.to_le_bytes());
        expect_v_kept(&behind_v(&fields));
    }
    for mode in [SYMBOLIC, FOLDER] {
        for n in [58_369, TOP - 74, TOP - 70, TOP] {
            let fields = &inode_stating(8, mode, 70, n, b"")[..71];
            expect_v_kept(&behind_v(fields));
        }
    }
}

/// More extents than may be are no sign that power was lost.
#[test]
fn too_many_extents() {
    let fields = |n| inode_stating(8, REGULAR, 0, n, b"")[..71].to_vec();
    for n in [0, 57, 58_367, 58_368] {
        expect_v_kept(&behind_v(&fields(n)));
    }
    for n in [58_369, 58_425, TOP] {
        let volume = behind_v(&fields(n));
        expect(&volume, refused(9, 104, 1), no(9));
        assert_eq!(longest_accepted(&volume), Some(104));
        // Without all of the length nobody knows.
        expect_v_kept(&volume[..174]);
    }
}

/// V and two blocks, the length of the first of these damaged.
fn with_length(n: u64) -> Vec<u8> {
    let mut volume = behind_v(&[data(8, b"x"), data(9, b"1,5")].concat());
    assert_eq!(volume.len(), 150);
    volume[113..121].copy_from_slice(&n.to_le_bytes());
    volume
}

#[test]
fn a_length_damaged_in_the_middle() {
    expect(&with_length(1), accepted(0, 3, 150, Some(9)), Ok(150));
    // The sound block behind it goes too.
    for n in [26, 200, 1 << 16, TOP - 16, TOP] {
        expect_v_kept(&with_length(n));
    }
    // Up to the very end it is a checksum that is wrong.
    for n in [0, 2, 24, 25] {
        expect(&with_length(n), refused(5, 104, 1), no(5));
    }
}

/// Nothing is kept where a table's own lengths are damaged.
#[test]
fn a_length_damaged_in_a_table() {
    let blocks = [small_table(), data(8, b"1,5")];
    let sound = volume(1, &blocks);
    let with = |at: usize, field: &[u8]| {
        let mut volume = sound.clone();
        volume[at..at + field.len()].copy_from_slice(field);
        volume
    };
    expect(&with(81, &[4]), refused(2, 80, 0), no(2));
    expect(&with(81, &[0, 16]), refused(2, 80, 0), no(2));
    expect(&with(81, &[1, 16]), refused(9, 80, 0), no(9));
    expect(&with(105, &[99]), refused(2, 80, 0), no(2));
    expect(&with(105, &[0]), refused(5, 80, 0), no(5));
}

/// That bytes are missing is said before that a time is lower.
#[test]
fn a_lower_time() {
    for block in every_kind(6) {
        expect_v_kept(&behind_v(&block[..block.len() - 1]));
        expect(&behind_v(&block), refused(14, 104, 1), no(14));
    }
}

#[test]
fn a_text_that_is_not_utf8() {
    let rows = [
        (link(2, 8, b"a\xffb"), 0, 1),
        (link(3, 8, b"\xe2\x28"), 0, 0),
        (xattr(8, b"un\xe2\x28", b""), 0, 2),
        (removed_xattr(8, b"\xf0\x9f\x92"), 0, 0),
        (inode(8, SYMBOLIC, 75, b"ab\xed\xa0\x80"), 0, 2),
        (rename(8, b"gauge", b"x\xc0\x80"), 1, 1),
    ];
    for (block, text, start) in rows {
        let refusal = Refusal::not_text(text, start);
        let verdict = Verdict::Refused {
            refusal,
            offset: 104,
            blocks: 1,
        };
        let volume = behind_v(&block);
        expect(&volume, verdict, Err(refusal));
        assert_eq!(longest_accepted(&volume), Some(104));
        expect_v_kept(&volume[..volume.len() - 1]);
    }
}

/// Headers and tables that are whole and at fault, and with what.
#[test]
fn faults_of_headers_and_tables() {
    let name = table_link(5, 1, b"g");
    let twice = [&name[..], &name].concat();
    let mut magic = header(0);
    magic[3] ^= 1;
    let rows = [
        (magic, 3, 0),
        (changed(&header(0), 35, &[1]), 4, 0),
        (spoiled(header(0)), 5, 0),
        (changed(&header(0), 75, &[1]), 6, 0),
        (volume(1, &[spoiled(small_table())]), 5, 80),
        (volume(1, &[data(1, b"")]), 8, 80),
        (volume(1, &[table(4_097, b"")]), 9, 80),
        (volume(1, &[table(2, &twice)]), 13, 80),
        (volume(0, &[small_table()]), 8, 80),
    ];
    for (volume, number, offset) in rows {
        expect(&volume, refused(number, offset, 0), no(number));
        let cut = [&volume[..], &data(8, b"1,5")[..9]].concat();
        expect(&cut, refused(number, offset, 0), no(number));
    }
    let names = [table_link(5, 1, b"ok"), table_link(6, 1, b"ab\xff")].concat();
    let answer = repair(&volume(1, &[table(2, &names)]));
    assert_eq!(answer, Err(Refusal::not_text(1, 2)));
}

/// The longest volume, one byte less and one byte more.
#[test]
fn the_longest_volumes() {
    let limit = VOLUME_LIMIT as u64;
    let mut volume = [header(0), data(1, &noise(4, VOLUME_LIMIT - 101))].concat();
    assert_eq!(repair(&volume), Ok(limit));
    assert_eq!(repair(&volume[..VOLUME_LIMIT - 1]), Ok(80));
    volume.push(6);
    assert_eq!(repair(&volume), no(1));
    // Taking the last byte off would do, and is not asked for.
    assert_eq!(longest_accepted(&volume), Some(limit));
    assert_eq!(repair(&vec![0; VOLUME_LIMIT + 1]), no(1));
}

/// Nothing in them is a header.
#[test]
fn noise_is_refused() {
    for length in 0..200 {
        let bytes = noise(length as u64, length);
        let number = if length < 80 { 2 } else { 3 };
        expect(&bytes, refused(number, 0, 0), no(number));
        assert_eq!(longest_accepted(&bytes), None);
    }
}
