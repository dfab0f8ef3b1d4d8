//! Trees as the calls give them that have Rust types: lines with children and names.

use hdrfs::{Blocks, Content, LinkTable, Refusal, TreeLine, Volume};
use independent::links::{Link, Links};
use independent::{Bookmark, HEADER_LENGTH};

use super::Asked;
use crate::difference::{same, same_list, Difference};
use crate::tally::Trees;
use crate::volume::typed_refusal;

/// A line: its depth, and the place, the child and the name of its link.
type Line<'a> = (usize, usize, u64, &'a [u8]);

/// The table at the bookmark, which a walk from there on comes to first, and its tree with each of
/// these limits of lines and with none.
pub(super) fn compare(
    asked: &Asked<'_>,
    limits: &[usize],
    tally: &mut Trees,
) -> Result<(), Difference> {
    let Bookmark {
        offset,
        last,
        number,
        ..
    } = asked.mark;
    let mark = hdrfs::Bookmark::at(offset)
        .with_table_due(true)
        .with_last_time(last)
        .with_number(number);
    let block = Blocks::at(asked.volume, mark).next();
    let read = block.unwrap_or_else(|| unreachable!("an end where a table is due"));
    let table = read.map(|block| match block.content {
        Content::LinkTable(table) => table,
        other => unreachable!("{other:?} where a table is due"),
    });
    let question = || format!("the table that Blocks::at {mark:?} comes to");
    let Some(table) = same_table(asked, table, question)? else {
        return Ok(());
    };
    for &limit in limits {
        let tree = table.tree_within(asked.root, limit);
        let number = same_tree(asked, limit, tree, "LinkTable::tree_within")?;
        tally.lines[number as usize] += 1;
    }
    whole(asked, &table, tally)
}

/// The tree without a limit of the caller's.
fn whole(asked: &Asked<'_>, table: &LinkTable<'_>, tally: &mut Trees) -> Result<(), Difference> {
    let tree = table.tree(asked.root);
    let number = same_tree(asked, hdrfs::Tree::MAX_LINES, tree, "LinkTable::tree")?;
    tally.lines[number as usize] += 1;
    Ok(())
}

/// The table behind the header of a volume, and its tree.
pub(super) fn first_table(volume: &[u8], root: u64, tally: &mut Trees) -> Result<(), Difference> {
    let table = Volume::link_table(volume);
    let question = || "Volume::link_table".into();
    let number = table.as_ref().err().map_or(0, |refusal| refusal.number);
    if let Err(refusal) = independent::read_header(volume) {
        let expected = Some(typed_refusal(refusal, 0));
        same(table.err(), expected, question)?;
    } else {
        let asked = Asked {
            volume,
            mark: Bookmark::at(HEADER_LENGTH as u64),
            root,
            odd: 0,
        };
        if let Some(table) = same_table(&asked, table, question)? {
            whole(&asked, &table, tally)?;
        }
    }
    tally.table[number as usize] += 1;
    Ok(())
}

/// Whether the table has the links that it should have, or the refusal is the right one. Answers the
/// table if there is one.
fn same_table<'a>(
    asked: &Asked<'a>,
    table: Result<LinkTable<'a>, Refusal>,
    question: impl Fn() -> String,
) -> Result<Option<LinkTable<'a>>, Difference> {
    let bytes = table.map(|table| table.bytes());
    let expected = asked.links().map_err(|refusal| at_table(asked, refusal));
    same(bytes, expected, question)?;
    Ok(table.ok())
}

/// A refusal of the table, or of its tree.
fn at_table(asked: &Asked<'_>, refusal: independent::Refusal) -> Refusal {
    let Bookmark { offset, number, .. } = asked.mark;
    typed_refusal(refusal, offset).with_block(Some(number))
}

/// Whether a tree with so many lines at most has the lines that it should have, or the refusal is the
/// right one. Answers its number, 0 for none.
fn same_tree(
    asked: &Asked<'_>,
    limit: usize,
    tree: Result<hdrfs::Tree<'_>, Refusal>,
    call: &str,
) -> Result<u64, Difference> {
    let question = || format!("{call} of {} with {limit} lines", asked.root);
    let said = tree.as_ref().map(ExactSizeIterator::len).unwrap_or(0);
    let expected = expected(asked, limit);
    let told = tree.as_ref().map(|_| ()).map_err(|refusal| *refusal);
    same(
        told,
        expected.as_ref().map(|_| ()).map_err(|r| *r),
        question,
    )?;
    let (Ok(tree), Ok(expected)) = (tree, expected) else {
        return Ok(told.err().map_or(0, |refusal| refusal.number));
    };
    let lines: Vec<Line<'_>> = tree.map(|line| plain(&line)).collect();
    same_list(&lines, &expected, question)?;
    same(said, expected.len(), || question() + ", Tree::len")?;
    Ok(0)
}

fn plain<'a>(line: &TreeLine<'a>) -> Line<'a> {
    (line.depth, line.place, line.child, line.name.as_bytes())
}

/// The lines by the independent implementation, each with the link that has its place.
fn expected<'a>(asked: &Asked<'a>, limit: usize) -> Result<Vec<Line<'a>>, Refusal> {
    let told = |refusal| at_table(asked, refusal);
    let links: Vec<Link<'a>> = Links::new(asked.links().map_err(told)?).collect();
    let mut numbers = vec![0; 2 * limit];
    let lines = asked.ask_independent(&mut numbers).map_err(told)?;
    let pairs = numbers.as_chunks::<2>().0.iter().take(lines as usize);
    let line = |&[depth, place]: &[u64; 2]| {
        let link = links[place as usize];
        (depth as usize, place as usize, link.child, link.name)
    };
    Ok(pairs.map(line).collect())
}
