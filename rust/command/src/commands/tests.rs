//! Command lines that are understood, and some that are not.

use std::num::NonZeroUsize;
use std::path::PathBuf;
use std::thread;

use super::*;

fn words(line: &str) -> impl Iterator<Item = OsString> + '_ {
    line.split_whitespace().map(OsString::from)
}

/// What a line asks for, in the form for programmers, and whether for machines.
fn ask(line: &str) -> Result<(String, bool), String> {
    let (asked, json) = read(words(line));
    match asked.map_err(|failure| failure.to_string())? {
        Asked::Text(text) => Ok((text, json)),
        Asked::Request(request) => Ok((format!("{request:?}"), json)),
    }
}

/// What `ask` answers for a request.
fn is(request: impl Request, json: bool) -> Result<(String, bool), String> {
    Ok((format!("{request:?}"), json))
}

fn files(names: &[&str]) -> Vec<PathBuf> {
    names.iter().map(PathBuf::from).collect()
}

fn check(names: &[&str], jobs: usize) -> Check {
    Check {
        files: files(names),
        chain: false,
        jobs: NonZeroUsize::new(jobs).unwrap(),
    }
}

fn cores() -> NonZeroUsize {
    thread::available_parallelism().unwrap()
}

#[test]
fn checks() {
    for line in [
        "check a b -j 4",
        "check -j4 a b",
        "check --jobs=4 a b",
        "-j 4 check a b",
    ] {
        assert_eq!(ask(line), is(check(&["a", "b"], 4), false), "{line}");
    }
    for line in [
        "check a -j1 --json",
        "--json check a -j1",
        "check --json -j1 a --json",
    ] {
        assert_eq!(ask(line), is(check(&["a"], 1), true), "{line}");
    }
    assert_eq!(
        ask("check -j1 -- -j --json"),
        is(check(&["-j", "--json"], 1), false)
    );
    assert_eq!(
        ask("check -j1 -- a -- b"),
        is(check(&["a", "--", "b"], 1), false)
    );
}

#[test]
fn chains_and_digests() {
    let request = Check {
        chain: true,
        ..check(&["a", "b"], 2)
    };
    assert_eq!(ask("check a --chain b -j2"), is(request, false));
    let request = || Chain {
        files: files(&["a", "b"]),
        jobs: NonZeroUsize::new(2).unwrap(),
    };
    assert_eq!(ask("chain a b -j2"), is(request(), false));
    assert_eq!(ask("--json chain -j2 a b"), is(request(), true));
    let digests = |names| Digests {
        files: files(names),
    };
    assert_eq!(ask("digest a b"), is(digests(&["a", "b"]), false));
    assert_eq!(
        ask("digest a - b -"),
        is(digests(&["a", "-", "b", "-"]), false)
    );
    assert_eq!(
        ask("digest --json -- - -j"),
        is(digests(&["-", "-j"]), true)
    );
}

#[test]
fn as_many_jobs_as_cores() {
    assert_eq!(ask("check a"), is(check(&["a"], cores().get()), false));
    let inodes = |jobs| Inodes {
        files: files(&["a"]),
        jobs,
    };
    assert_eq!(ask("inodes a"), is(inodes(cores()), false));
    assert_eq!(ask("inodes a -j1"), is(inodes(NonZeroUsize::MIN), false));
}

#[test]
fn runs() {
    let request = |from, to| Runs {
        files: files(&["a"]),
        jobs: cores(),
        inode: 7,
        from,
        to,
    };
    assert_eq!(ask("runs a --inode 7"), is(request(0, u64::MAX), false));
    let whole = format!("runs --inode=7 --from 3 --to={} a", u64::MAX);
    assert_eq!(ask(&whole), is(request(3, u64::MAX), false));
    let backwards = "runs a --inode 7 --from 9 --to 2";
    assert_eq!(ask(backwards), is(request(9, 2), false));
}

#[test]
fn lists_and_extracts() {
    let file = PathBuf::from("a");
    let list = |long| List {
        file: file.clone(),
        long,
    };
    assert_eq!(ask("list a"), is(list(false), false));
    assert_eq!(ask("list a --long"), is(list(true), false));
    assert_eq!(ask("list -l a --json"), is(list(true), true));
    let request = || Extract {
        files: files(&["a", "b"]),
        jobs: cores(),
        inode: 0,
        out: PathBuf::from("c"),
    };
    for line in [
        "extract a b --inode 0 -o c",
        "extract --inode 0 a b -oc",
        "extract --inode 0 a --output=c b",
    ] {
        assert_eq!(ask(line), is(request(), false), "{line}");
    }
    let dash = Extract {
        out: PathBuf::from("-"),
        ..request()
    };
    assert_eq!(ask("extract a b --inode 0 -o -"), is(dash, false));
}

#[test]
fn repairs() {
    let request = |out: &str, cut| Repair {
        file: PathBuf::from("a"),
        out: PathBuf::from(out),
        cut,
    };
    for line in ["repair a -o b", "repair -ob a", "--output=b repair a"] {
        assert_eq!(ask(line), is(request("b", false), false), "{line}");
    }
    for line in [
        "repair a -o b --cut --json",
        "--cut --json repair -o b -- a",
        "repair --cut a --json --cut -o b",
    ] {
        assert_eq!(ask(line), is(request("b", true), true), "{line}");
    }
    assert_eq!(ask("repair a -o -"), is(request("-", false), false));
}

#[test]
fn trees() {
    let request = |root, lines| Tree {
        file: PathBuf::from("a"),
        root,
        lines,
    };
    let most = 65_536;
    assert_eq!(ask("tree a"), is(request(None, most), false));
    for line in ["tree a --root 0", "--root=0 tree a"] {
        assert_eq!(ask(line), is(request(Some(0), most), false), "{line}");
    }
    let line = format!("tree --json --lines {0} a --root={0}", u64::MAX);
    assert_eq!(ask(&line), is(request(Some(u64::MAX), usize::MAX), true));
    assert_eq!(ask("tree a --lines=0"), is(request(None, 0), false));
}

#[test]
fn help_and_version() {
    for line in [
        "--help",
        "-h",
        "help",
        "help help",
        "help version",
        "--help help",
    ] {
        assert_eq!(ask(line), Ok((help::general(), false)), "{line}");
    }
    for command in &COMMANDS {
        let name = command.name;
        for line in [
            format!("{name} --help"),
            format!("--help {name}"),
            format!("help {name}"),
            format!("{name} --inode x -h a"),
        ] {
            assert_eq!(ask(&line), Ok((command.help.to_string(), false)), "{line}");
        }
        assert!(help::general().contains(&format!("hdrfs {name} ")));
    }
    for line in ["--version", "-V", "version", "check --version"] {
        assert_eq!(ask(line), Ok((help::VERSION.to_string(), false)), "{line}");
    }
}

#[test]
fn wrong_use_is_said() {
    for (line, said) in [
        ("", "no command is given"),
        ("--json", "no command is given"),
        ("chek a", "unknown command chek"),
        ("check", "the name of a volume is missing"),
        ("check a --fast", "unknown option --fast"),
        ("check a -x", "unknown option -x"),
        ("check -", "check has no option -"),
        ("chain a -", "chain has no option -"),
        ("-", "unknown command -"),
        ("chain", "the name of a volume is missing"),
        ("chain a --chain", "chain has no option --chain"),
        ("digest", "the name of a volume is missing"),
        ("digest a -j 2", "digest has no option --jobs"),
        ("list a --chain", "list has no option --chain"),
        ("check a -j", "--jobs needs a value"),
        ("check a -j 0", "--jobs has to be at least 1"),
        ("check a -j four", "--jobs four is no number below 2^64"),
        ("check a -jx", "--jobs x is no number below 2^64"),
        ("check a -j 1 -j 2", "--jobs is given twice"),
        ("check a --inode 7", "check has no option --inode"),
        ("list a b", "list takes one volume"),
        ("list a -o b", "list has no option --output"),
        ("check a --long", "check has no option --long"),
        ("inodes a --inode 7", "inodes has no option --inode"),
        ("runs a", "--inode is missing"),
        ("runs a --inode", "--inode needs a value"),
        ("runs a --inode=", "--inode  is no number"),
        ("runs a --inode +7", "--inode +7 is no number"),
        ("runs a --inode -7", "--inode -7 is no number"),
        (
            "runs a --inode 18446744073709551616",
            "is no number below 2^64",
        ),
        ("runs --inode 7", "the name of a volume is missing"),
        ("extract a --inode 7", "-o is missing"),
        ("extract a -o b", "--inode is missing"),
        (
            "extract a --inode 7 -o b --from 3",
            "extract has no option --from",
        ),
        ("repair a", "-o is missing"),
        ("repair -o b", "the name of a volume is missing"),
        ("repair a b -o c", "repair takes one volume"),
        ("repair - -o b", "repair has no option -"),
        ("repair a -o b -j 2", "repair has no option --jobs"),
        ("repair a -o b -o c", "--output is given twice"),
        ("repair a -o b --cut=9", "unknown option --cut=9"),
        (
            "extract a --inode 7 -o b --cut",
            "extract has no option --cut",
        ),
        ("tree", "the name of a volume is missing"),
        ("tree a b", "tree takes one volume"),
        ("tree -", "tree has no option -"),
        ("tree a --root", "--root needs a value"),
        ("tree a --root one", "--root one is no number below 2^64"),
        ("tree a --root 1 --root 2", "--root is given twice"),
        ("tree a --lines -1", "--lines -1 is no number below 2^64"),
        ("tree a --inode 1", "tree has no option --inode"),
        ("tree a -j 2", "tree has no option --jobs"),
        ("list a --root 1", "list has no option --root"),
        ("inodes a --lines 1", "inodes has no option --lines"),
        ("--help chek", "unknown command chek"),
        ("help chek", "unknown command chek"),
        ("help check list", "list is too much after help"),
        ("help -j 3", "help has no option --jobs"),
        ("version 2", "2 is too much after version"),
    ] {
        let answer = ask(line).expect_err(line);
        assert!(answer.contains(said), "{line}: {answer}");
    }
}

#[test]
fn a_long_option_needs_both_hyphens() {
    for (line, said) in [
        ("check a -json", "unknown option -json; --json is meant?"),
        (
            "check a -jobs=4",
            "unknown option -jobs=4; --jobs is meant?",
        ),
        ("check -help", "unknown option -help; --help is meant?"),
        ("repair a -o b -cut", "unknown option -cut; --cut is meant?"),
        (
            "tree a -lines 9",
            "unknown option -lines; --lines is meant?",
        ),
        (
            "extract a --inode 1 -output b",
            "unknown option -output; --output is meant?",
        ),
    ] {
        let answer = ask(line).expect_err(line);
        assert!(answer.contains(said), "{line}: {answer}");
    }
    assert!(ask("extract a --inode 1 -outputs").is_ok());
}

#[test]
fn machines_are_answered_also_on_wrong_use() {
    for line in [
        "--json",
        "check --json",
        "check --fast --json a",
        "chek --json",
        "check -j 0 a --json",
    ] {
        let (asked, json) = read(words(line));
        assert!(asked.is_err() && json, "{line}");
    }
    let (asked, json) = read(words("check --fast -- --json"));
    assert!(asked.is_err() && !json);
}

/// The page for `man` names every command and every option, and has the version.
#[test]
fn the_page_is_complete() {
    let page = include_str!("../../../../man/hdrfs.1").replace("\\-", "-");
    for command in &COMMANDS {
        let name = command.name;
        assert!(page.contains(&format!("\n.B hdrfs {name}\n")), "{name}");
        assert!(page.contains(&format!("\n.TP\n.B {name}\n")), "{name}");
    }
    for option in crate::words::names() {
        assert!(page.contains(option), "{option}");
    }
    assert!(page.contains(&format!("\"{}\"", help::VERSION.trim_end())));
}
