//! `hdrfs tree`: the names below a folder, out of the link table of a volume.

use std::collections::BTreeSet;
use std::path::{Path, PathBuf};

use hdrfs::{LinkTable, Refusal, TreeLine, Volume};

use crate::commands::Request;
use crate::failure::{Failure, Status};
use crate::input;
use crate::json::Object;
use crate::output::{self, Lines};
use crate::progress::Progress;
use crate::text::{count, listed, quoted, shown};
use crate::words::Words;

/// The folder that is listed where nobody says which.
const USUAL_ROOT: u64 = 1;

/// How many folders are named where one has to be chosen. There may be thousands.
const NAMED: usize = 8;

#[derive(Debug)]
pub struct Tree {
    pub file: PathBuf,
    /// The folder, if it is said which.
    pub root: Option<u64>,
    /// How many lines are listed at most.
    pub lines: usize,
}

impl Request for Tree {
    fn parse(words: &mut Words) -> Result<Tree, String> {
        let most = |lines| usize::try_from(lines).unwrap_or(usize::MAX);
        let lines = words.number("--lines")?;
        Ok(Tree {
            root: words.number("--root")?,
            lines: lines.map_or(hdrfs::Tree::MAX_LINES, most),
            file: words.file("tree")?,
        })
    }

    fn run(&self, json: bool) -> Result<Status, Failure> {
        let path = input::volume(&self.file, "tree")?;
        // It may come slowly, through a pipe.
        let progress = Progress::new("volume", "checked", 1);
        let volume = input::read(&path)?;
        let listing = self.list(&path, &volume)?;
        drop(progress);
        listing.print(json)
    }
}

impl Tree {
    /// The whole listing. Whatever is refused is refused before anything is printed.
    fn list<'a>(&self, path: &'a Path, volume: &'a [u8]) -> Result<Listing<'a>, Failure> {
        let table = table(path, volume)?;
        let (root, is_found) = match self.root {
            Some(root) => (root, false),
            None => usual_root(&table).map_err(|tops| which_root(path, &tops))?,
        };
        let tree = table.tree_within(root, self.lines);
        Ok(Listing {
            path,
            root,
            is_found,
            tree: tree.map_err(|refusal| self.refused(path, root, refusal))?,
        })
    }

    fn refused(&self, path: &Path, root: u64, refusal: Refusal) -> Failure {
        let why = match refusal.number {
            Refusal::TOO_DEEP => {
                format!("below {root} links lead around in a loop, or folders are too deep")
            }
            _ => {
                let most = count(self.lines as u64, "line");
                format!("below {root} are more than {most} (--lines N for more)")
            }
        };
        explained(path, refusal, why)
    }
}

fn explained(path: &Path, refusal: Refusal, why: String) -> Failure {
    let path = path.to_path_buf();
    Failure::Explained { path, refusal, why }
}

/// The link table of a volume that is sound as a whole.
fn table<'a>(path: &Path, volume: &'a [u8]) -> Result<LinkTable<'a>, Failure> {
    let refused = |refusal| Failure::refused(path, refusal, volume);
    let checked = Volume::check(volume).map_err(|rejected| refused(rejected.refusal))?;
    Volume::link_table(volume).map_err(|refusal| match checked.sequence() {
        0 => explained(path, refusal, "volume 0 has no link table".to_string()),
        _ => refused(refusal),
    })
}

/// The folder where nobody says which, and whether it is another than usual; or all that it could be.
/// Nothing but an empty table has no folder.
fn usual_root(table: &LinkTable<'_>) -> Result<(u64, bool), Vec<u64>> {
    let parents: BTreeSet<u64> = table.iter().map(|link| link.parent).collect();
    if parents.is_empty() || parents.contains(&USUAL_ROOT) {
        return Ok((USUAL_ROOT, false));
    }
    let children: BTreeSet<u64> = table.iter().map(|link| link.child).collect();
    let tops: Vec<u64> = parents.difference(&children).copied().collect();
    match tops[..] {
        [root] => Ok((root, true)),
        _ => Err(tops),
    }
}

/// Wrong use: nobody but the person knows which folder is meant.
fn which_root(path: &Path, tops: &[u64]) -> Failure {
    let mut named: Vec<String> = tops.iter().take(NAMED).map(u64::to_string).collect();
    if tops.len() > NAMED {
        named.push(format!("{} more", tops.len() - NAMED));
    }
    let file = shown(path);
    let missing = format!("--root is missing: in {file} nothing is in {USUAL_ROOT}");
    Failure::Usage(match tops.len() {
        0 => format!("{missing}, and every folder is in another, in a loop"),
        all => format!(
            "{missing}, and {all} folders are in no other: {}",
            listed(&named)
        ),
    })
}

/// What is printed.
struct Listing<'a> {
    path: &'a Path,
    root: u64,
    /// Whether nobody would expect this root.
    is_found: bool,
    tree: hdrfs::Tree<'a>,
}

impl Listing<'_> {
    fn print(&self, json: bool) -> Result<Status, Failure> {
        let mut lines = Lines::new();
        if json {
            for line in self.tree.clone() {
                lines.put(&object(&line).line())?;
            }
            lines.put(&self.last_object().line())?;
        } else {
            if self.is_found {
                output::say(self.other_root());
            }
            for line in self.words() {
                lines.put(&line)?;
            }
        }
        lines.flush()?;
        Ok(Status::Accepted)
    }

    /// The lines for people. The column of numbers is as wide as the widest of them, for which the tree
    /// is gone through twice. The names stand last, since they may have blanks in them.
    fn words(&self) -> impl Iterator<Item = String> + '_ {
        let most = self.tree.clone().map(|line| line.child).max();
        let width = most.unwrap_or(0).to_string().len().max("inode".len());
        let heading = format!("{:>width$}  name\n", "inode");
        let line = move |line: TreeLine<'_>| {
            let (child, name, indent) = (line.child, quoted(line.name), 2 * line.depth);
            format!("{child:>width$}  {:indent$}{name}\n", "")
        };
        let all = count(self.tree.len() as u64, "line");
        let last = format!("{all} below {}\n", self.root);
        let lines = self.tree.clone().map(line);
        [heading].into_iter().chain(lines).chain([last])
    }

    fn other_root(&self) -> String {
        let (file, root) = (shown(self.path), self.root);
        format!(
            "{file}: nothing is in {USUAL_ROOT}, so the tree is below {root}, the one folder that is \
             in no other"
        )
    }

    fn last_object(&self) -> Object {
        Object::new()
            .text("file", &self.path.to_string_lossy())
            .number("root", self.root)
            .number("lines", self.tree.len() as u64)
    }
}

fn object(line: &TreeLine<'_>) -> Object {
    Object::new()
        .number("depth", line.depth as u64)
        .number("place", line.place as u64)
        .number("child", line.child)
        .text("name", line.name)
}

#[cfg(test)]
mod tests {
    use hdrfs::{Link, LinkList, Writer};

    use super::*;

    /// The example of the help and of the page for `man` is what would be printed.
    #[test]
    fn the_help_shows_what_is_printed() {
        let link = |child, parent, name| Link {
            child,
            parent,
            name,
        };
        let links = LinkList::new()
            .push(link(2, 1, "north"))
            .and_then(|links| links.push(link(7, 2, "gauge.csv")))
            .and_then(|links| links.push(link(8, 1, "log")));
        let mut buf = [0; 200];
        let mut writer = Writer::create(&mut buf, &[1; 16], 1, &[2; 32]).unwrap();
        writer.append_links(&links.unwrap()).unwrap();
        let request = Tree {
            file: PathBuf::new(),
            root: None,
            lines: hdrfs::Tree::MAX_LINES,
        };
        let listing = request.list(Path::new("a.vol"), writer.written()).unwrap();
        let printed: Vec<String> = listing.words().collect();
        let indented: String = printed.iter().map(|line| format!("  {line}")).collect();
        assert!(crate::help::TREE.contains(&indented), "{indented}");
        let page = include_str!("../../../man/hdrfs.1").replace("\\-", "-");
        let printed = format!(".nf\n{}.fi\n", printed.concat());
        assert!(page.contains(&printed), "{printed}");
    }
}
