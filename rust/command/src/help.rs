//! What `--help` prints.

use crate::commands::COMMANDS;

pub const VERSION: &str = concat!("hdrfs ", env!("CARGO_PKG_VERSION"), "\n");

/// The help that goes with no command.
pub fn general() -> String {
    let summaries: String = COMMANDS.iter().map(|command| command.summary).collect();
    format!("{BEFORE}{summaries}{AFTER}")
}

const BEFORE: &str = "\
hdrfs reads HDRFS volumes, the yearly archives of water-level networks. From an
archive to a file: check it, find the file's number among the inodes, extract.

";

const AFTER: &str = "
FILE is a volume, or a folder, which stands for the *.vol in it.

  --json       one JSON object a line, for machines; numbers go up to 2^64 - 1
  --help       this text; after a command, more about it (or: hdrfs help check)
  --version    the version
  --           what follows are names of files, even if they begin with -

A volume that is not sound is refused, with a number, the offset of the fault,
the block at fault, counted from 0, unless it is the header, and plain words:

  a.vol: refused 5 at 4711 (block 17): checksum wrong; 17 blocks accepted before

Of a text that is not UTF-8 the words also say which text of the block it is, at
which byte of it that begins, both counted from 0, and what the text is:

  refused 10 at 80 (block 0): text is not UTF-8 (text 1, byte 39999): new path

Exit status: 0 accepted; 1 refused; 2 wrong use, or a file that cannot be read
or written.
";

pub const CHECK_SUMMARY: &str = "\
\x20 hdrfs check FILE..                       whether volumes are sound and one set
";

pub const CHECK: &str = "\
hdrfs check FILE.. [--chain] [-j N] [--json]

Checks whole volumes. Prints a line for each, in the order given, and a summary.
Of several it says whether those that are sound are one set: they are of one
file system, and no sequence number is there twice. Numbers that are missing
are told, and are no fault.

  --chain           say also whether each follows the one before it, as
                    hdrfs chain does: there, a missing number is a fault
  -j N, --jobs N    check up to N volumes at a time (as many as there are
                    cores, if not given)
  --json            an object a file, and no summary: file, sequence, id (of
                    the file system), previous (hash), blocks, end, time if
                    there is a last one, and digest with --chain; or file,
                    refused, offset, block (none if the header is at fault),
                    words and blocks (accepted before), and if a text is not
                    UTF-8: text (its number in the block, from 0), start (the
                    byte of it at which that begins) and which (what the text
                    is); or file and error. Of several at the end: set (true or
                    false), and id, volumes (how many) and missing (first and
                    last of each gap), or error; and with --chain the objects
                    of hdrfs chain

Exit status: 0 all are sound and one set, and with --chain an unbroken chain; 1
some are refused, or they are no set or no such chain; 2 wrong use, or some
cannot be read.
";

pub const CHAIN_SUMMARY: &str = "\
\x20 hdrfs chain FILE..                       whether each follows the one before
";

pub const CHAIN: &str = "\
hdrfs chain FILE.. [-j N] [--json]

Says whether volumes are an unbroken chain. They may be given in any order, and
are taken by rising sequence number. A volume follows another if both are sound
and of one file system, its number is the next one, and the hash of the previous
volume that it has is the SHA-256 digest of the other. Prints a line for each
but the first, and then one for all:

  05.vol: follows 04.vol
  06.vol: refused 23: does not follow 05.vol (previous hash differs)
  chain: volumes 0 to 6, broken at 1 of 6 places

A volume that is not sound is refused as by hdrfs check, and then left out. That
volumes before the first are not given is told, and is no fault.

  -j N, --jobs N    check up to N volumes at a time (as many as there are
                    cores, if not given)
  --json            an object a volume but the first: file, other (the file
                    before it) and follows (true or false); if false also
                    refused, words and why, and missing if it is for a gap (its
                    first and last number, as hdrfs check has them). Of those
                    not accepted, what hdrfs check prints. At the end: chain
                    (true or false), first and last (number), pairs and broken
                    (how many)

Exit status: 0 the chain is unbroken; 1 it is broken, or some are refused; 2
wrong use, or some cannot be read.
";

pub const DIGEST_SUMMARY: &str = "\
\x20 hdrfs digest FILE..                      the SHA-256 digests of files
";

pub const DIGEST: &str = "\
hdrfs digest FILE.. [--json]

Prints the SHA-256 digest of each file, in the lines of sha256sum, which checks
them with its option -c. That of a volume is the hash that the next volume has.
A file need not be a sound volume; one of more than 16,777,216 bytes is refused,
and the others are still digested. With - standard input is read.

  --json    an object a file: file and digest; or file, refused, offset and
            words; or file and error

Exit status: 0 done; 1 some are refused; 2 wrong use, or some cannot be read.
";

pub const LIST_SUMMARY: &str = "\
\x20 hdrfs list FILE [--long]                 the blocks of a volume
";

pub const LIST: &str = "\
hdrfs list FILE [--long] [--json]

Lists the blocks of a volume: where each begins, the number of its kind and its
length. The last line says where the volume ends and how many blocks it has, or
what is refused and where; which block and which text of it that is, and why, is
said on standard error.

  1 inode    3 unlink    5 removed xattr    7 rename
  2 link     4 xattr     6 data             8 link table

  -l, --long    first the volume's file system ID and the hash of the volume
                before it; then of each block also its number, from 0, its
                kind in words, its time and what it is about, with the names
                of links
  --json        an object a line: file, sequence, id and previous; for each
                block its number (block, from 0), offset, id and length, and
                with --long all its numbers and names; at the end, end and
                blocks, or file, refused, offset, block, words and blocks, and
                text, start and which if a text is not UTF-8, as hdrfs check

Exit status: 0 the volume is sound; 1 it is refused; 2 wrong use, or it cannot
be read.
";

pub const TREE_SUMMARY: &str = "\
\x20 hdrfs tree FILE [--root N]               the names below a folder, as a tree
";

pub const TREE: &str = "\
hdrfs tree FILE [--root N] [--lines N] [--json]

Lists the names below a folder as a tree, out of the link table of one volume:
as they were when the volume was begun. Links, unlinks and renames behind the
table are not taken in. A line a link, in the order of the table, with the inode
number that it stands for; what is in a folder comes right behind it, two blanks
further in:

  inode  name
      2  \"north\"
      7    \"gauge.csv\"
      8  \"log\"
  3 lines below 1

The volume has to be sound. A link is listed once for each path that leads to
it. One at depth 32, counted from 0, is refused with 24: most often links lead
around in a loop. Volume 0 has no link table, and is refused with 8, or with 2
if it has no block.

  --root N     the inode number of the folder. If not given it is 1; if nothing
               is in 1, it is the one folder that is in no other, which is said
               on standard error
  --lines N    list up to N lines (65,536 if not given); where there are more,
               none is listed, and it is refused with 17. Each takes 16 bytes of
               memory, or twice that
  --json       an object a line: depth, place (of the link among those of the
               table), both from 0, child and name; at the end: file, root and
               lines (how many). Or what hdrfs check prints of a refused volume;
               or file, refused, offset, block, words and why

Exit status: 0 done; 1 refused; 2 wrong use, --root is missing since there is
not one such folder, or a file that cannot be read.
";

pub const INODES_SUMMARY: &str = "\
\x20 hdrfs inodes FILE..                      the files, folders and links in them
";

pub const INODES: &str = "\
hdrfs inodes FILE.. [-j N] [--json]

Prints the current state of every inode: its number, type and size, the volume
and the offset of its block, the time of the block, when its content and when it
was last changed, when it was made and last read, and the last link to it: the
name and the inode number of the folder that it stands in, and whether it was
taken away. Such a file can still be extracted.

The current state is the last one: in the volume with the highest sequence
number that has the inode, the last block. So all volumes should be given, in
any order. The last link is found likewise, in link tables too. Renames are not
followed: they have paths, and no inode numbers. A name of more than 255 bytes
is cut, and .. stands behind it.

  -j N, --jobs N    check up to N volumes at a time (as many as there are
                    cores, if not given)
  --json            an object an inode: inode, type, size, volume, block (the
                    number of its block there, from 0), offset, mode, uid, gid,
                    time, atime, mtime, ctime, btime, and unlinked (true or
                    false); and if there is a last link: name, parent (its
                    folder) and cut (true or false)

Exit status: 0 done; 1 refused; 2 wrong use, or a file that cannot be read.
";

pub const RUNS_SUMMARY: &str = "\
\x20 hdrfs runs FILE.. --inode N              where the bytes of a file are stored
";

pub const RUNS: &str = "\
hdrfs runs FILE.. --inode N [--from A] [--to B] [-j N] [--json]

Prints where the bytes of a regular file are stored, a line a run: position,
length, kind (0 hole, 1 stored), sequence number of the volume, offset in it.
Holes have 0 and 0 for the last two.

All volumes that the file is stored in have to be given, in any order. The
inode is the last one with its number: in the volume with the highest sequence
number that has it, the last block.

  --inode N         the inode number (hdrfs inodes shows them)
  --from A          the first position (0 if not given)
  --to B            the position after the last (the end of the file if not
                    given)
  -j N, --jobs N    check up to N volumes at a time (as many as there are
                    cores, if not given)
  --json            an object a line: start, length, kind (hole or stored), and
                    volume and offset if it is stored

Exit status: 0 done; 1 refused; 2 wrong use, or a file that cannot be read.
";

pub const EXTRACT_SUMMARY: &str = "\
\x20 hdrfs extract FILE.. --inode N -o OUT    the content of a file
";

pub const EXTRACT: &str = "\
hdrfs extract FILE.. --inode N -o OUT [-j N] [--json]

Writes the content of a regular file to OUT. Holes stay holes. OUT appears, or
is replaced, only once all is written; where anything is refused, fails or is
interrupted, it stays as it was. A link is followed. OUT can be read by no more
people than the inode's mode says, nor than before.

All volumes that the file is stored in have to be given, in any order. Those
that come through pipes are kept in memory; others are read again, and it is
noticed if they changed meanwhile. The inode is the last one with its number: in
the volume with the highest sequence number that has it, the last block.

  --inode N               the inode number (hdrfs inodes shows them)
  -o OUT, --output OUT    the file to write; not one of the volumes. With - the
                          content goes to standard output: then holes are
                          zeros, and what was written before a failure is a
                          part of the file, which the exit status tells
  -j N, --jobs N          check up to N volumes at a time (as many as there are
                          cores, if not given)
  --json                  an object: file, inode, volume and offset of the
                          inode's block, size, stored (how many bytes are);
                          with -o - on standard error

Exit status: 0 written; 1 refused; 2 wrong use, or a file that cannot be read
or written.
";

pub const REPAIR_SUMMARY: &str = "\
\x20 hdrfs repair FILE -o OUT                 the sound beginning of a cut volume
";

pub const REPAIR: &str = "\
hdrfs repair FILE -o OUT [--cut] [--json]

Copies the longest sound beginning of a volume that was cut short, as when the
power is lost during an append: all that stands before the block that is not
whole. A sound volume is copied whole. Says how much is dropped, from where on,
and how many whole blocks are among it:

  OUT: the first 104 of 127 bytes of FILE, 1 block; dropped 23 bytes from offset
  104 (block 1), which is cut short; no whole block among them

FILE is one volume, and is never changed. Keep it: what is dropped is nowhere
else. Only a 2 of hdrfs check is repaired, bytes that end too early, and not in
the header or the link table. All else is refused as there.

- A tail of zeros gives 7, and is not repaired.
- A damaged length field in the middle of a volume gives 2 too. Then the sound
  blocks behind it are dropped with it. Whole blocks among what is dropped are a
  sign of that, or they stand inside the block that is cut short.

OUT appears, or is replaced, only once all is written; where anything is
refused, fails or is interrupted, it stays as it was. A link is followed. OUT
can be read by no more people than FILE, nor than before.

  -o OUT, --output OUT    the file to write; not FILE. With - the volume goes to
                          standard output, and what is said to standard error
  --cut                   drop more than 65,536 bytes too; without it nothing is
                          written then
  --json                  an object: file, out, length, blocks (that are left),
                          dropped (bytes), whole (blocks among them), at_least
                          (true if there may be more of these, since the search
                          for them ended early, else false), and if something
                          is dropped offset and block, those of the cut block;
                          or what hdrfs check prints of a refused volume

Exit status: 0 written; 1 refused; 2 wrong use, --cut is missing, or a file that
cannot be read or written.
";
