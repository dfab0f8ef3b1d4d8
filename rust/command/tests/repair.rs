//! `hdrfs repair`: what is copied, what is said to be dropped, and that nothing is written where
//! something is refused or asked for.

mod support;

use std::fs::{self, File, Permissions};
use std::os::unix::fs::{symlink, PermissionsExt};
use std::process::Command;

use support::json::{self, object, Object};
use support::volumes::{data, header, rename, small_volume, table};
use support::{fed, Answer, Folder};

const MAX_VOLUME_LEN: usize = 16_777_216;

/// The sound volume of 104 bytes, and 23 of the 24 bytes of a block behind it.
fn torn() -> Vec<u8> {
    and_then(&data(8, b"1,5")[..23])
}

/// The sound volume with more bytes behind it.
fn and_then(more: &[u8]) -> Vec<u8> {
    [&small_volume(), more].concat()
}

/// The sound volume and so many bytes of a block that is longer.
fn long_torn(len: usize) -> Vec<u8> {
    and_then(&data(8, &[b'x'; 70_000])[..len])
}

/// The sound volume, a block whose length is damaged, and these behind it.
fn damaged_length(behind: &[Vec<u8>]) -> Vec<u8> {
    let mut damaged = data(8, b"x");
    damaged[16] = 1;
    and_then(&[&damaged[..], &behind.concat()].concat())
}

/// A folder with a volume that is called v.
fn folder(name: &str, volume: &[u8]) -> Folder {
    let folder = Folder::new(name);
    folder.put("v", volume);
    folder
}

#[test]
fn a_volume_that_is_cut_short() {
    let folder = folder("repair_torn", &torn());
    let line = "out: the first 104 of 127 bytes of v, 1 block; dropped 23 bytes from offset 104 \
                (block 1), which is cut short; no whole block among them\n";
    folder.run("repair v -o out").is(0, line, "");
    assert_eq!(folder.read("out"), small_volume());
    assert_eq!(folder.read("v"), torn());
    assert_eq!(folder.names(), ["out", "v"]);
    assert_eq!(folder.run("check out").status, 0);
}

#[test]
fn a_sound_volume_is_copied_whole() {
    let folder = folder("repair_sound", &small_volume());
    folder.put("out", b"something longer than it was".repeat(10).as_slice());
    let line = "out: all 104 bytes of v, 1 block; nothing had to be dropped\n";
    folder.run("repair v -o out").is(0, line, "");
    folder.run("repair --cut v -o out").is(0, line, "");
    assert_eq!(folder.read("out"), small_volume());
}

#[test]
fn the_first_block_is_cut_short() {
    let folder = folder("repair_first", &small_volume()[..81]);
    let line = "out: the first 80 of 81 bytes of v, 0 blocks; dropped 1 byte from offset 80 \
                (block 0), which is cut short; no whole block among them\n";
    folder.run("repair v -o out").is(0, line, "");
    assert_eq!(folder.read("out"), header(0));
}

#[test]
fn whole_blocks_that_are_dropped_are_counted() {
    let folder = Folder::new("repair_whole");
    let block = || data(9, b"1,5");
    for (behind, said) in [
        (vec![], "no whole block among them"),
        (vec![block()], "1 whole block among them: keep v"),
        (vec![block(); 3], "3 whole blocks among them: keep v"),
        (
            vec![block(), rename(9, b"a", b"b")[..10].to_vec()],
            "1 whole block among them: keep v",
        ),
    ] {
        let volume = damaged_length(&behind);
        folder.put("v", &volume);
        let answer = folder.run("repair v -o out");
        assert_eq!((answer.status, answer.err.as_str()), (0, ""));
        let lost = volume.len() - 104;
        let dropped = format!("dropped {lost} bytes from offset 104 (block 1), which is cut short");
        let end = format!("; {dropped}; {said}\n");
        assert!(answer.out.ends_with(&end), "{answer:?}");
        assert_eq!(folder.read("out"), small_volume());
    }
}

/// A block that was being appended, and had the blocks of another volume in its payload.
#[test]
fn blocks_in_a_payload_are_counted_too() {
    let outer = data(8, &[small_volume(), data(9, b"x")].concat());
    let folder = folder("repair_payload", &and_then(&outer[..outer.len() - 1]));
    let answer = folder.run("repair v -o out");
    assert!(
        answer
            .out
            .ends_with("; 2 whole blocks among them: keep v\n"),
        "{answer:?}"
    );
}

/// Bytes of which each looks like the first of a long block: no search goes through them all.
fn hostile(blocks: &[Vec<u8>]) -> Vec<u8> {
    let mut volume = damaged_length(blocks);
    volume.resize(MAX_VOLUME_LEN, 7);
    volume
}

#[test]
fn a_hostile_volume_has_at_least_so_many() {
    let folder = Folder::new("repair_hostile");
    for (blocks, said) in [
        (0, "whole blocks may be among them"),
        (1, "at least 1 whole block among them"),
        (2, "at least 2 whole blocks among them"),
    ] {
        folder.put("v", &hostile(&vec![data(9, b"1,5"); blocks]));
        let answer = folder.run("repair v -o out --cut");
        assert!(
            answer.out.ends_with(&format!("; {said}: keep v\n")),
            "{answer:?}"
        );
        let answer = folder.run("repair v -o out --cut --json");
        assert_eq!(answer.objects()[0]["whole"], (blocks as u64).into());
        assert_eq!(answer.objects()[0]["at_least"], true.into());
        assert_eq!(folder.read("out"), small_volume());
    }
}

/// What may be dropped without a further word, and one byte more.
#[test]
fn more_than_65_536_bytes_are_dropped_on_demand_only() {
    let folder = folder("repair_cut", &long_torn(65_536));
    let kept = "the first 104 of 65640 bytes of v, 1 block";
    let lost =
        "65536 bytes from offset 104 (block 1), which is cut short; no whole block among them";
    let line = format!("out: {kept}; dropped {lost}\n");
    folder.run("repair v -o out").is(0, &line, "");
    folder.put("v", &long_torn(65_537));
    let kept = "the first 104 of 65641 bytes of v, 1 block";
    let lost =
        "65537 bytes from offset 104 (block 1), which is cut short; no whole block among them";
    let said = format!(
        "hdrfs: --cut is missing, which it takes to drop more than 65536 bytes: out would be {kept}; \
         dropped would be {lost}\n"
    );
    folder.nothing_is_written("repair v -o out", 2, &said);
    let line = format!("out: {kept}; dropped {lost}\n");
    folder.run("repair v -o out --cut").is(0, &line, "");
    assert_eq!(folder.read("out"), small_volume());
}

/// Volumes that are refused, and the number, offset and block of each.
fn refused_volumes() -> Vec<(Vec<u8>, &'static str)> {
    let mut damaged = small_volume();
    damaged[98] = b'.';
    let with_table = [header(1), table(&[])].concat();
    let bad_text = and_then(&rename(8, b"a", b"b\xFF"));
    vec![
        (damaged, "refused 5 at 80 (block 0): "),
        (and_then(&[0; 24]), "refused 7 at 104 (block 1): "),
        (and_then(&table(&[])), "refused 8 at 104 (block 1): "),
        (with_table[..80].to_vec(), "refused 2 at 80 (block 0): "),
        (with_table[..92].to_vec(), "refused 2 at 80 (block 0): "),
        (small_volume()[..79].to_vec(), "refused 2 at 0: "),
        (vec![], "refused 2 at 0: "),
        (b"no volume".repeat(20), "refused 3 at 0: "),
        (bad_text, "refused 10 at 104 (block 1): "),
    ]
}

/// The words are those of `hdrfs check`, and so is the object.
#[test]
fn nothing_is_written_where_the_volume_is_refused() {
    let folder = Folder::new("repair_refused");
    for (volume, said) in refused_volumes() {
        folder.put("v", &volume);
        let checked = folder.run("check v");
        let line = checked.out.lines().next().unwrap();
        assert!(line.starts_with(&format!("v: {said}")), "{line}");
        for more in ["", " --cut"] {
            let asked = format!("repair v -o out{more}");
            folder.nothing_is_written(&asked, 1, &format!("{line}\n"));
        }
        let checked = folder.run("check v --json").objects();
        let answer = folder.run("repair v -o out --json");
        assert_eq!((answer.status, answer.objects()), (1, checked));
    }
}

/// No more of it is read than it takes to refuse it: it has a hole of a tebibyte.
#[test]
fn a_volume_that_is_too_long() {
    let folder = folder("repair_long", b"");
    let said = "v: refused 1 at 0: volume too long; 0 blocks accepted before\n";
    let long = File::options()
        .write(true)
        .open(folder.0.join("v"))
        .unwrap();
    for len in [MAX_VOLUME_LEN as u64 + 1, 1 << 40] {
        long.set_len(len).unwrap();
        folder.nothing_is_written("repair v -o out --cut", 1, said);
    }
}

#[test]
fn nothing_is_written_on_wrong_use() {
    let folder = folder("repair_wrong", &torn());
    fs::create_dir(folder.0.join("archive")).unwrap();
    fs::write(folder.0.join("archive/0.vol"), torn()).unwrap();
    for (line, said) in [
        ("repair none -o out", "none: cannot be read: "),
        (
            "repair archive -o out",
            "hdrfs: archive is a folder, and repair takes one volume\n",
        ),
        ("repair v v -o out", "hdrfs: repair takes one volume (more "),
        ("repair v", "hdrfs: -o is missing"),
        (
            "repair v -o archive",
            "hdrfs: archive is a folder, which is not replaced by a file\n",
        ),
        ("repair v -o none/out", "none/out: cannot be written: "),
    ] {
        folder.nothing_is_written(line, 2, said);
    }
    let answer = folder.run("repair archive -o out --json");
    let why = "archive is a folder, and repair takes one volume";
    assert_eq!(answer.objects(), [object([("error", why.into())])]);
    assert_eq!((answer.status, answer.err.as_str()), (2, ""));
}

/// What is dropped would be lost.
#[test]
fn a_volume_is_never_repaired_in_place() {
    let folder = folder("repair_place", &torn());
    symlink("v", folder.0.join("link")).unwrap();
    fs::hard_link(folder.0.join("v"), folder.0.join("twin")).unwrap();
    let before = folder.names();
    for file in ["v", "link", "twin", "./v"] {
        for out in ["v", "../repair_place/v", "link", "twin"] {
            let said = format!("hdrfs: {out} is one of the volumes to read\n");
            folder
                .run(&format!("repair {file} -o {out}"))
                .is(2, "", &said);
        }
    }
    let mut command = folder.command();
    command.args(["repair", "/dev/stdin", "-o", "v"]);
    let stdin = File::open(folder.0.join("v")).unwrap();
    let answer = Answer::new(command.stdin(stdin).output().unwrap());
    answer.is(2, "", "hdrfs: v is one of the volumes to read\n");
    assert_eq!(folder.names(), before);
    assert_eq!((folder.read("v"), folder.read("twin")), (torn(), torn()));
}

#[test]
fn a_volume_may_come_through_a_pipe() {
    let folder = Folder::new("repair_pipe");
    let mut command = folder.command();
    command.args(["repair", "/dev/stdin", "-o", "out"]);
    let answer = Answer::new(fed(command, &torn()));
    let start = "out: the first 104 of 127 bytes of /dev/stdin, 1 block; ";
    assert!(answer.out.starts_with(start), "{answer:?}");
    assert_eq!(folder.read("out"), small_volume());
}

/// Runs the command with the volume on standard output, which is no text.
fn to_output(folder: &Folder, more: &[&str]) -> (Option<i32>, Vec<u8>, String) {
    let mut command = folder.command();
    command.args(["repair", "v", "-o", "-"]).args(more);
    let output = command.output().unwrap();
    let err = String::from_utf8(output.stderr).unwrap();
    (output.status.code(), output.stdout, err)
}

#[test]
fn standard_output_has_the_volume_and_nothing_else() {
    let folder = folder("repair_output", &torn());
    let said = "-: the first 104 of 127 bytes of v, 1 block; dropped 23 bytes from offset 104 \
                (block 1), which is cut short; no whole block among them\n";
    let expected = (Some(0), small_volume(), said.to_string());
    assert_eq!(to_output(&folder, &[]), expected);
    let (status, out, err) = to_output(&folder, &["--json"]);
    assert_eq!((status, out), (Some(0), small_volume()));
    assert_eq!(json::parse(err.trim_end()), report("-"));
    folder.put("v", &long_torn(65_537));
    let (status, out, err) = to_output(&folder, &[]);
    assert_eq!((status, out), (Some(2), vec![]));
    assert!(err.starts_with("hdrfs: --cut is missing, "), "{err}");
    folder.put("v", &and_then(&[0]));
    let (status, out, err) = to_output(&folder, &[]);
    assert_eq!((status, out), (Some(1), vec![]));
    assert!(err.starts_with("v: refused 7 at 104 (block 1): "), "{err}");
    let (status, out, err) = to_output(&folder, &["--json"]);
    assert_eq!((status, out), (Some(1), vec![]));
    assert_eq!(json::parse(err.trim_end())["refused"], 7.into());
    assert_eq!(folder.names(), ["v"]);
}

/// The object for the volume that is cut short.
fn report(out: &str) -> Object {
    object([
        ("file", "v".into()),
        ("out", out.into()),
        ("length", 104.into()),
        ("blocks", 1.into()),
        ("dropped", 23.into()),
        ("whole", 0.into()),
        ("at_least", false.into()),
        ("offset", 104.into()),
        ("block", 1.into()),
    ])
}

#[test]
fn objects_for_machines() {
    let folder = folder("repair_json", &torn());
    let answer = folder.run("repair v -o out --json");
    assert_eq!((answer.status, answer.err.as_str()), (0, ""));
    assert_eq!(answer.objects(), [report("out")]);
    folder.put("v", &small_volume());
    let mut whole = report("out");
    whole.insert("dropped".to_string(), 0.into());
    whole.remove("offset");
    whole.remove("block");
    assert_eq!(folder.run("repair v -o out --json").objects(), [whole]);
    folder.put("v", &long_torn(65_537));
    let answer = folder.run("repair v -o out --json");
    assert_eq!((answer.status, answer.err.as_str()), (2, ""));
    let object = &answer.objects()[0];
    assert_eq!(object.keys().collect::<Vec<_>>(), ["error"]);
}

/// The permissions of OUT, given those of the volume and a umask, and of OUT before if it is there.
fn permissions(folder: &Folder, volume: u32, umask: &str, before: Option<u32>) -> u32 {
    let set = |name: &str, mode| {
        fs::set_permissions(folder.0.join(name), Permissions::from_mode(mode)).unwrap();
    };
    set("v", volume);
    let _ = fs::remove_file(folder.0.join("out"));
    if let Some(before) = before {
        folder.put("out", b"as it was");
        set("out", before);
    }
    let line = format!("umask {umask} && exec \"$0\" repair v -o out");
    let mut command = Command::new("sh");
    command.args(["-c", &line, env!("CARGO_BIN_EXE_hdrfs")]);
    let output = command.current_dir(&folder.0).output().unwrap();
    assert!(output.status.success());
    folder.permissions("out")
}

#[test]
fn the_copy_is_for_no_more_people_than_the_volume() {
    let folder = folder("repair_mode", &torn());
    for (volume, umask, before, expected) in [
        (0o600, "022", None, 0o600),
        (0o644, "022", None, 0o644),
        (0o666, "022", None, 0o644),
        (0o444, "022", None, 0o444),
        (0o664, "077", None, 0o600),
        (0o644, "022", Some(0o600), 0o600),
        (0o600, "022", Some(0o644), 0o600),
        (0o666, "022", Some(0o666), 0o666),
    ] {
        let found = permissions(&folder, volume, umask, before);
        assert_eq!(found, expected, "{volume:o} {umask} {before:?}");
    }
}

/// A copy longer than its owner may write.
#[test]
fn a_copy_that_cannot_be_written_leaves_nothing() {
    let folder = folder("repair_limit", &and_then(&data(8, &[b'x'; 200_000])));
    folder.too_large_to_write("repair v -o out");
}
