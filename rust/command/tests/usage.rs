//! Help, version and wrong use.

mod support;

use support::json::object;
use support::Folder;

#[test]
fn help_goes_to_standard_output() {
    let folder = Folder::new("usage_help");
    for (line, first) in [
        ("--help", "hdrfs reads HDRFS volumes"),
        ("help", "hdrfs reads HDRFS volumes"),
        ("check --help", "hdrfs check FILE.. "),
        ("chain --help", "hdrfs chain FILE.. "),
        ("digest --help", "hdrfs digest FILE.. "),
        ("list -h", "hdrfs list FILE "),
        ("tree --help", "hdrfs tree FILE [--root N] "),
        ("runs --help", "hdrfs runs FILE.. --inode N "),
        ("extract --help", "hdrfs extract FILE.. --inode N -o OUT "),
        ("help extract", "hdrfs extract FILE.. --inode N -o OUT "),
        ("repair --help", "hdrfs repair FILE -o OUT "),
    ] {
        let answer = folder.run(line);
        assert_eq!((answer.status, answer.err.as_str()), (0, ""), "{line}");
        assert!(answer.out.starts_with(first), "{line}");
        assert!(answer.out.contains("Exit status: 0"), "{line}");
        assert!(answer.out.lines().all(|line| line.len() <= 80), "{line}");
    }
}

#[test]
fn the_version() {
    let version = concat!("hdrfs ", env!("CARGO_PKG_VERSION"), "\n");
    let folder = Folder::new("usage_version");
    folder.run("--version").is(0, version, "");
    folder.run("version").is(0, version, "");
}

#[test]
fn wrong_use_is_one_line_on_standard_error() {
    let folder = Folder::new("usage_wrong");
    for (line, said) in [
        ("", "hdrfs: no command is given (more with: hdrfs --help)\n"),
        (
            "fold v",
            "hdrfs: unknown command fold (more with: hdrfs --help)\n",
        ),
        (
            "check --fast v",
            "hdrfs: unknown option --fast (more with: hdrfs --help)\n",
        ),
        (
            "check v -json",
            "hdrfs: unknown option -json; --json is meant? (more with: hdrfs --help)\n",
        ),
        (
            "check",
            "hdrfs: the name of a volume is missing (more with: hdrfs check --help)\n",
        ),
        (
            "check -j 0 v",
            "hdrfs: --jobs has to be at least 1 (more with: hdrfs check --help)\n",
        ),
        (
            "runs v",
            "hdrfs: --inode is missing: which file? hdrfs inodes shows them (more with: hdrfs runs --help)\n",
        ),
    ] {
        folder.run(line).is(2, "", said);
    }
}

#[test]
fn wrong_use_is_an_object_for_machines() {
    let folder = Folder::new("usage_wrong_json");
    for (line, said) in [
        ("--json", "no command is given (more with: hdrfs --help)"),
        (
            "check --fast v --json",
            "unknown option --fast (more with: hdrfs --help)",
        ),
        (
            "check --json",
            "the name of a volume is missing (more with: hdrfs check --help)",
        ),
    ] {
        let answer = folder.run(line);
        assert_eq!((answer.status, answer.err.as_str()), (2, ""), "{line}");
        assert_eq!(answer.objects(), [object([("error", said.into())])]);
    }
}
