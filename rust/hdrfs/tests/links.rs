//! The last link to each inode of a set.

#[path = "support/set.rs"]
mod set;

use hdrfs::{Archive, Checker, Member};
use set::{volume, with_table};

/// An archive of volumes, each as it is changed.
fn archive_of(volumes: &[Vec<u8>], change: impl Fn(Member) -> Member) -> Archive {
    let mut archive = Archive::new();
    for bytes in volumes {
        let member = Checker::new().bytes("a volume", bytes.clone()).unwrap();
        archive.insert(change(member)).unwrap();
    }
    archive
}

fn in_memory(volumes: &[Vec<u8>]) -> Archive {
    archive_of(volumes, |member| member)
}

/// The last link, as name, parent and whether it was taken away.
fn last(archive: &Archive, number: u64) -> Option<(&str, u64, bool)> {
    let link = archive.last_link(number)?;
    assert!(!link.cut);
    Some((link.name, link.parent, link.taken_away))
}

#[test]
fn a_link_that_was_taken_away_last_is_told() {
    let volumes = [
        volume(2, |draft| draft.link(8, "again")),
        volume(0, |draft| {
            for number in 7..=10 {
                draft.file(number, 0, &[]);
                draft.link(number, "name");
            }
            draft.unlink(7, "name");
            draft.unlink(9, "name");
            draft.link(9, "other name");
        }),
        volume(1, |draft| draft.unlink(8, "name")),
    ];
    let archive = in_memory(&volumes);
    let unlinked: Vec<_> = archive.inodes().map(|inode| inode.unlinked).collect();
    assert_eq!(unlinked, [true, false, false, false]);
    assert_eq!(last(&archive, 7), Some(("name", 1, true)));
    assert_eq!(last(&archive, 8), Some(("again", 1, false)));
    assert_eq!(last(&archive, 9), Some(("other name", 1, false)));
    assert_eq!(last(&archive, 11), None);
    let first_two = in_memory(&volumes[1..]);
    assert!(first_two.inode(8).unwrap().unlinked);
    assert_eq!(last(&first_two, 8), Some(("name", 1, true)));
}

/// Three volumes: inodes 7 to 10, of which some links are taken away, and a table later.
fn tables() -> [Vec<u8>; 3] {
    [
        volume(0, |draft| {
            for number in 7..=10 {
                draft.file(number, 0, &[]);
                draft.link(number, "old");
            }
        }),
        with_table(1, &[(7, 1, "table 1"), (8, 1, "x")], |draft| {
            for number in 7..=9 {
                draft.unlink(number, "old");
            }
        }),
        with_table(2, &[(7, 3, "first"), (9, 1, "nine"), (7, 2, "")], |draft| {
            draft.unlink(9, "nine")
        }),
    ]
}

#[test]
fn the_links_of_a_table_stand_before_the_other_blocks_of_its_volume() {
    let volumes = tables();
    for order in [[0, 1, 2], [2, 1, 0], [1, 2, 0]] {
        let archive = in_memory(&order.map(|place: usize| volumes[place].clone()));
        // The table of a higher volume is later than an unlink, and its last link is the last.
        assert_eq!(last(&archive, 7), Some(("", 2, false)));
        // An unlink is later than the table of its own volume.
        assert_eq!(last(&archive, 8), Some(("old", 1, true)));
        assert_eq!(last(&archive, 9), Some(("nine", 1, true)));
        assert_eq!(last(&archive, 10), Some(("old", 1, false)));
        let unlinked: Vec<_> = archive.inodes().map(|inode| inode.unlinked).collect();
        assert_eq!(unlinked, [false, true, true, false]);
    }
    let archive = in_memory(&volumes[..2]);
    assert_eq!(last(&archive, 7), Some(("old", 1, true)));
}

#[test]
fn links_without_a_name_keep_their_order() {
    let archive = in_memory(&[with_table(1, &[(7, 5, ""), (7, 6, "")], |draft| {
        draft.file(7, 0, &[]);
        draft.link(7, "");
        draft.unlink(7, "");
        draft.link(8, "eight");
        draft.unlink(8, "eight");
        draft.link(8, "");
    })]);
    assert_eq!(last(&archive, 7), Some(("", 1, true)));
    assert_eq!(last(&archive, 8), Some(("", 1, false)));
}

#[test]
fn long_names_are_cut_between_characters() {
    for (name, kept) in [
        ("x".repeat(255), 255),
        ("x".repeat(256), 255),
        ("x".repeat(65_535), 255),
        ("é".repeat(127), 254),
        ("é".repeat(128), 254),
        ("é".repeat(127) + "x", 255),
        ("水".repeat(85), 255),
        ("水".repeat(86), 255),
        ("x".repeat(252) + "\u{10ffff}", 252),
        ("x".repeat(251) + "\u{10ffff}", 255),
    ] {
        let archive = in_memory(&[
            volume(0, |draft| draft.link(7, &name)),
            with_table(1, &[(8, 1, &name), (9, 1, "short")], |_| ()),
        ]);
        for number in [7, 8] {
            let link = archive.last_link(number).unwrap();
            assert_eq!(link.name, &name[..kept]);
            assert_eq!(link.cut, kept < name.len());
        }
        assert_eq!(last(&archive, 9), Some(("short", 1, false)));
    }
}

#[test]
fn an_archive_of_one_inode_has_what_is_about_it() {
    let volumes = tables();
    let whole = in_memory(&volumes);
    for number in 7..=11 {
        let archive = archive_of(&volumes, |member| member.with_inode(number));
        assert_eq!(archive.inode(number), whole.inode(number));
        assert_eq!(archive.inodes().len(), usize::from(number < 11));
        for other in 7..=11 {
            let expected = whole.last_link(other).filter(|_| other == number);
            assert_eq!(archive.last_link(other), expected);
        }
    }
}

#[test]
fn an_archive_without_inodes_has_no_links() {
    let archive = archive_of(&tables(), Member::without_inodes);
    assert_eq!(archive.volumes().count(), 3);
    assert!((7..=11).all(|number| archive.last_link(number).is_none()));
}
