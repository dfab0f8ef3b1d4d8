//! A whole volume, from the header to the last block.

use crate::block::{read_with, Bookmark, Reading};
use crate::crc;
use crate::header::read_header;
use crate::refusal::Refusal;

#[derive(Clone, Copy, Debug, PartialEq, Eq)]
pub enum Verdict {
    Accepted {
        sequence: u64,
        /// Blocks after the header, a table among them: the end's number.
        blocks: u64,
        end: Bookmark,
    },
    Refused {
        refusal: Refusal,
        /// Where the header or block at fault begins.
        offset: u64,
        /// Blocks before it, and so the number of the block at fault.
        blocks: u64,
    },
}

/// Checks a whole volume.
pub fn check(volume: &[u8]) -> Verdict {
    check_with(volume, crc::slicing)
}

/// Like [`check`], with a chosen form of the checksum for the blocks.
pub fn check_with(volume: &[u8], crc: impl Fn(&[u8]) -> u32) -> Verdict {
    let header = match read_header(volume) {
        Ok(header) => header,
        Err(refusal) => {
            return Verdict::Refused {
                refusal,
                offset: 0,
                blocks: 0,
            }
        }
    };
    let mut mark = header.next;
    loop {
        match read_with(volume, mark, &crc) {
            Ok(Reading::Block(_, next)) => mark = next,
            Ok(Reading::End) => {
                return Verdict::Accepted {
                    sequence: header.sequence,
                    blocks: mark.number,
                    end: mark,
                }
            }
            Err(refusal) => {
                return Verdict::Refused {
                    refusal,
                    offset: mark.offset,
                    blocks: mark.number,
                }
            }
        }
    }
}
