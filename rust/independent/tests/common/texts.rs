//! Blocks with texts, asked about by every call.

use independent::*;

use super::*;

/// Appends a block with these texts.
pub type TextAppend = fn(&mut [u8], Bookmark, &[Vec<u8>]) -> Result<Bookmark, Refusal>;

/// A kind of block: so many texts, its image from them and its append.
pub struct Kind {
    pub texts: usize,
    /// Whether it is a table, which must be due.
    pub is_table: bool,
    pub image: fn(&[Vec<u8>]) -> Vec<u8>,
    pub append: TextAppend,
}

pub const TARGET: Kind = Kind {
    texts: 1,
    is_table: false,
    image: |texts| inode(1, SYMBOLIC, 70 + texts[0].len() as u64, &texts[0]),
    append: |buffer, mark, texts| {
        let stat = stat(1, SYMBOLIC, 70 + texts[0].len() as u64);
        append_inode(buffer, mark, &stat, &texts[0])
    },
};

pub const LINK: Kind = Kind {
    texts: 1,
    is_table: false,
    image: |texts| link(2, 1, &texts[0]),
    append: |buffer, mark, texts| append_link(buffer, mark, 1, 5, 1, &texts[0]),
};

pub const UNLINK: Kind = Kind {
    texts: 1,
    is_table: false,
    image: |texts| link(3, 1, &texts[0]),
    append: |buffer, mark, texts| append_unlink(buffer, mark, 1, 5, 1, &texts[0]),
};

/// The value is no text, and nothing in it is ever at fault.
pub const XATTR: Kind = Kind {
    texts: 1,
    is_table: false,
    image: |texts| xattr(1, &texts[0], b"\xff\x80"),
    append: |buffer, mark, texts| append_xattr(buffer, mark, 1, 5, &texts[0], b"\xff\x80"),
};

pub const REMOVED: Kind = Kind {
    texts: 1,
    is_table: false,
    image: |texts| removed_xattr(1, &texts[0]),
    append: |buffer, mark, texts| append_removed_xattr(buffer, mark, 1, 5, &texts[0]),
};

pub const RENAME: Kind = Kind {
    texts: 2,
    is_table: false,
    image: |texts| rename(1, &texts[0], &texts[1]),
    append: |buffer, mark, texts| append_rename(buffer, mark, 1, &texts[0], &texts[1]),
};

pub const TABLE: Kind = Kind {
    texts: 4,
    is_table: true,
    image: |texts| table(texts.len() as u64, &links(texts)),
    append: |buffer, mark, texts| append_table(buffer, mark, texts.len() as u64, &links(texts)),
};

pub const KINDS: [Kind; 7] = [TARGET, LINK, UNLINK, XATTR, REMOVED, RENAME, TABLE];

/// Links of different folders, so that names may be the same.
pub fn links(names: &[Vec<u8>]) -> Vec<u8> {
    let link = |(parent, name): (u64, &Vec<u8>)| table_link(9, parent, name);
    (0..).zip(names).flat_map(link).collect()
}

/// The syntax of RFC 3629: the bytes of a sequence, each with its bounds.
const SEQUENCES: [&[(u8, u8)]; 9] = [
    &[(0x00, 0x7F)],
    &[(0xC2, 0xDF), (0x80, 0xBF)],
    &[(0xE0, 0xE0), (0xA0, 0xBF), (0x80, 0xBF)],
    &[(0xE1, 0xEC), (0x80, 0xBF), (0x80, 0xBF)],
    &[(0xED, 0xED), (0x80, 0x9F), (0x80, 0xBF)],
    &[(0xEE, 0xEF), (0x80, 0xBF), (0x80, 0xBF)],
    &[(0xF0, 0xF0), (0x90, 0xBF), (0x80, 0xBF), (0x80, 0xBF)],
    &[(0xF1, 0xF3), (0x80, 0xBF), (0x80, 0xBF), (0x80, 0xBF)],
    &[(0xF4, 0xF4), (0x80, 0x8F), (0x80, 0xBF), (0x80, 0xBF)],
];

/// The length of the longest beginning that consists of such sequences.
pub fn well_formed(text: &[u8]) -> usize {
    let mut at = 0;
    let stands = |at: usize, sequence: &[(u8, u8)]| {
        let bytes = text.get(at..at + sequence.len());
        let within = |(byte, bounds): (&u8, &(u8, u8))| (bounds.0..=bounds.1).contains(byte);
        bytes.is_some_and(|bytes| bytes.iter().zip(sequence).all(within))
    };
    while let Some(sequence) = SEQUENCES.iter().find(|sequence| stands(at, sequence)) {
        at += sequence.len();
    }
    at
}

/// What texts are refused with, if they are.
fn fault(texts: &[Vec<u8>]) -> Option<Refusal> {
    (0..).zip(texts).find_map(|(place, text)| {
        let start = well_formed(text);
        (start < text.len()).then_some(Refusal::not_text(place, start as u64))
    })
}

impl Kind {
    /// A volume of this block alone, and the bookmark at it.
    fn volume(&self, texts: &[Vec<u8>]) -> (Vec<u8>, Bookmark) {
        let sequence = u64::from(self.is_table);
        let bytes = volume(sequence, &[(self.image)(texts)]);
        (bytes, mark(80, self.is_table, None))
    }

    /// Asks every call about a block with these texts. What is refused is
    /// told in the same three numbers by all.
    pub fn ask(&self, texts: &[Vec<u8>]) -> Option<Refusal> {
        let fault = fault(texts);
        let (bytes, mark) = self.volume(texts);
        assert_eq!(read(&bytes, mark).err(), fault, "{texts:?}");
        self.ask_for_all(&bytes, fault);
        self.ask_for_a_file(&bytes, fault);
        let blank = vec![0xEE; bytes.len()];
        let mut buffer = blank.clone();
        let next = (self.append)(&mut buffer, mark, texts);
        assert_eq!(next.err(), fault, "{texts:?}");
        assert_eq!(buffer == blank, fault.is_some());
        fault
    }

    /// The check, the listing and a set.
    fn ask_for_all(&self, bytes: &[u8], fault: Option<Refusal>) {
        let end = format!("end {} blocks 1\n", bytes.len());
        let (verdict, faults, last) = match fault {
            None => {
                let time = (!self.is_table).then_some(1);
                let sequence = u64::from(self.is_table);
                let verdict = accepted(sequence, 1, bytes.len() as u64, time);
                (verdict, vec![], end)
            }
            Some(refusal) => {
                let (place, offset, blocks) = (0, 80, 0);
                let verdict = Verdict::Refused {
                    refusal,
                    offset,
                    blocks,
                };
                let fault = SetFault::Refused {
                    place,
                    refusal,
                    offset,
                    blocks,
                };
                (verdict, vec![fault], "refused 10 at 80\n".into())
            }
        };
        assert_eq!(check(bytes), verdict);
        assert_eq!(set_faults(&[bytes]), faults);
        assert!(listing(bytes).ends_with(&last));
    }

    /// A block with texts is no regular file, and no table is due in a lookup.
    fn ask_for_a_file(&self, bytes: &[u8], fault: Option<Refusal>) {
        let refusal = match fault {
            _ if self.is_table => Refusal::of(8),
            Some(refusal) => refusal,
            None => Refusal::of(15),
        };
        let mut out = [7; 10];
        assert_eq!(lookup(bytes, 80, b"", 0), Err(refusal));
        assert_eq!(runs(bytes, 80, b"", 0, TOP, &mut out), Err(refusal));
        assert_eq!(run_count(bytes, 80, b"", 0, TOP), Err(refusal));
        assert_eq!(lookup(bytes, 80, b"1234567", 0), no(9));
        assert_eq!(runs(bytes, 80, b"1234567", 0, TOP, &mut out), no(9));
        assert_eq!(out, [7; 10]);
    }
}
