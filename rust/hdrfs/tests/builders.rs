//! Extents and links put together as values, against what is read back.

#[path = "support/set.rs"]
mod set;

use hdrfs::{Content, Extent, Extents, Inode, Link, LinkList, Logical, Multiplicity, Physical};
use hdrfs::{Volume, Writer};
use set::Numbers;

/// Extents whose numbers need all of their bytes, and do not overlap.
fn extents(numbers: &mut Numbers) -> Vec<Extent> {
    let count = numbers.below(30);
    (0..count)
        .map(|index| Extent {
            volume: numbers.below(u64::MAX),
            start: Physical(numbers.below(1 << 62)),
            size: 1 + numbers.below(1 << 30),
            multiplicity: match numbers.below(2) {
                0 => Multiplicity::Contiguous,
                _ => Multiplicity::Repeated,
            },
            count: 2 + numbers.below(1 << 20),
            pre: numbers.below(2),
            post: numbers.below(2),
            logical: Logical((index << 58) + numbers.below(1 << 57)),
        })
        .collect()
}

#[test]
fn extents_come_back_as_they_were_put_together() {
    let mut numbers = Numbers(0xE47E_4715_E47E_4715);
    for _ in 0..300 {
        let expected = extents(&mut numbers);
        let list: Extents = expected.iter().copied().collect();
        let one_by_one = expected
            .iter()
            .fold(Extents::new(), |list, extent| list.push(*extent));
        assert_eq!(list, one_by_one);
        let mut buf = vec![0; 3000];
        let mut writer = Writer::create(&mut buf, &[1; 16], 0, &[0; 32]).unwrap();
        let inode = Inode {
            size: u64::MAX,
            rest: list.as_bytes(),
            ..Inode::regular(7)
        };
        writer.append_inode(1, &inode).unwrap();
        let block = Volume::blocks(writer.written()).next().unwrap().unwrap();
        let Content::Inode(read) = block.content else {
            panic!("no inode");
        };
        assert_eq!(read, inode);
        assert_eq!(read.extents().len(), expected.len());
        assert_eq!(read.extents().collect::<Vec<_>>(), expected);
    }
}

#[test]
fn only_regular_files_have_extents() {
    let mut buf = vec![0; 300];
    let mut writer = Writer::create(&mut buf, &[1; 16], 0, &[0; 32]).unwrap();
    // As many bytes as an extent has.
    let target = &"x".repeat(57)[..];
    let link = Inode {
        mode: 0o120_777,
        size: 70 + target.len() as u64,
        rest: target.as_bytes(),
        ..Inode::regular(7)
    };
    writer.append_inode(1, &link).unwrap();
    let block = Volume::blocks(writer.written()).next().unwrap().unwrap();
    let Content::Inode(read) = block.content else {
        panic!("no inode");
    };
    assert_eq!(read.extents().next(), None);
    assert_eq!(read.target(), Some(target));
    assert_eq!(Inode::regular(7).target(), None);
}

#[test]
fn links_come_back_as_they_were_put_together() {
    let names: Vec<String> = (0..500).map(|number| "p\u{e9}".repeat(number)).collect();
    let links: Vec<Link<'_>> = (0..)
        .zip(&names)
        .map(|(number, name)| Link {
            child: u64::MAX - number,
            parent: number << 40,
            name,
        })
        .collect();
    let mut list = LinkList::new();
    for link in &links {
        list = list.push(*link).unwrap();
    }
    assert_eq!(list.len(), 500);
    let mut buf = vec![0; 1_000_000];
    let mut writer = Writer::create(&mut buf, &[1; 16], 1, &[2; 32]).unwrap();
    writer.append_links(&list).unwrap();
    let block = Volume::blocks(writer.written()).next().unwrap().unwrap();
    let Content::LinkTable(table) = block.content else {
        panic!("no table");
    };
    assert_eq!(table.bytes(), list.as_bytes());
    assert_eq!(table.iter().collect::<Vec<_>>(), links);
}

#[test]
fn the_rules_about_links_are_the_writers() {
    let link = Link {
        child: 7,
        parent: 1,
        name: "twice",
    };
    let twice = LinkList::new().push(link).unwrap().push(link).unwrap();
    let mut buf = vec![0; 1000];
    let mut writer = Writer::create(&mut buf, &[1; 16], 1, &[2; 32]).unwrap();
    assert_eq!(writer.append_links(&twice).unwrap_err().number, 13);
    writer.append_links(&LinkList::new()).unwrap();
}
