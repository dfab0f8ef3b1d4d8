//! SHA-256 digests, of bytes at once and of parts.

use generator::digest::Digest;
use hdrfs::{sys, Volume};
use independent::sha256::{self as plain, State, STATE_LENGTH};
use independent::Refusal;

use crate::difference::{same, same_list, Difference};
use crate::tally::Digests;
use crate::volume::typed_refusal;

/// The number of the refusal that both gave; 0 for none.
pub type Number = Result<u64, Difference>;

/// What stands before and behind bytes that are lent, and must be left there.
const AROUND: [u8; 16] = [0xA5; 16];

/// Bytes to lend, with others around them.
#[derive(Clone)]
struct Lent(Vec<u8>);

impl Lent {
    fn new(bytes: &[u8]) -> Lent {
        Lent([&AROUND, bytes, &AROUND].concat())
    }

    fn bytes(&mut self) -> &mut [u8] {
        let end = self.0.len() - AROUND.len();
        &mut self.0[AROUND.len()..end]
    }
}

/// Has both write to copies of some bytes, and leaves in them what both wrote. Items that differ are
/// counted from before the bytes, since those around them are compared too.
fn write(
    bytes: &mut [u8],
    proved: impl FnOnce(&mut [u8]) -> u64,
    independent: impl FnOnce(&mut [u8]) -> u64,
    question: impl Fn() -> String,
) -> Number {
    let [mut one, mut two] = [(); 2].map(|()| Lent::new(bytes));
    let (given, expected) = (proved(one.bytes()), independent(two.bytes()));
    same(given, expected, &question)?;
    same_list(&one.0, &two.0, question)?;
    bytes.copy_from_slice(one.bytes());
    Ok(expected)
}

/// The digest of some bytes at once.
pub fn whole(bytes: &[u8], room: &mut [u8]) -> Number {
    let question = format!("sha256 of {} bytes, room {}", bytes.len(), room.len());
    write(
        room,
        |room| sys::sha256(bytes, room),
        |room| plain::digest_bytes(bytes, room),
        || question.clone(),
    )
}

/// The state before any byte.
pub fn start(state: &mut [u8]) -> Number {
    let question = format!("sha256_start in {} bytes", state.len());
    write(state, sys::sha256_start, plain::start_bytes, || {
        question.clone()
    })
}

/// A part fed to a lent state.
pub fn feed(state: &mut [u8], part: &[u8]) -> Number {
    let before = state.to_vec();
    write(
        state,
        |state| sys::sha256_feed(state, part),
        |state| plain::feed_bytes(state, part),
        || {
            let state = generator::hex(&before);
            format!("sha256_feed of {} bytes to {state}", part.len())
        },
    )
}

/// The digest of a lent state, which stays as it is.
pub fn finish(state: &[u8], room: &mut [u8]) -> Number {
    let length = room.len();
    let question = || format!("sha256_finish of {}, room {length}", generator::hex(state));
    let mut lent = Lent::new(state);
    let number = write(
        room,
        |room| sys::sha256_finish(lent.bytes(), room),
        |room| plain::finish_bytes(state, room),
        question,
    )?;
    same_list(&lent.0, &Lent::new(state).0, || question() + ", its state")?;
    Ok(number)
}

/// Feeds parts to a lent state one after another, and to a [`hdrfs::Digest`] with that state if all of
/// it is lent. After each part the states are the same to the last byte, and each is finished, into
/// as much room as `room` has.
pub fn parts<'a>(
    state: &[u8],
    room: &[u8],
    parts: impl IntoIterator<Item = &'a [u8]>,
    tally: &mut Digests,
) -> Result<(), Difference> {
    let mut lent = state.to_vec();
    let state = state.first_chunk().copied();
    let mut typed = state.map(hdrfs::Digest::from_state);
    for part in parts {
        let number = feed(&mut lent, part)?;
        tally.feed[number as usize] += 1;
        let finished = finish(&lent, &mut room.to_vec())?;
        tally.finish[finished as usize] += 1;
        let Some(digest) = &mut typed else {
            continue;
        };
        same(digest.feed(part), told(number), || "Digest::feed".into())?;
        tally.fed[number as usize] += 1;
        by_type(digest, &lent, tally)?;
    }
    Ok(())
}

/// What is to be seen of a digest, against the state that both sides have of it.
fn by_type(digest: &hdrfs::Digest, lent: &[u8], tally: &mut Digests) -> Result<(), Difference> {
    same_list(digest.state(), &lent[..STATE_LENGTH], || {
        "Digest::state".into()
    })?;
    let state = State::from_bytes(lent).expect("all of a state is lent");
    same(digest.fed(), state.fed, || "Digest::fed".into())?;
    let expected = state.finish();
    tally.finished[expected.err().unwrap_or(0) as usize] += 1;
    let expected = expected.map_err(typed);
    same(digest.finish(), expected, || "Digest::finish".into())
}

/// A refusal of a digest, which is nowhere in a volume.
fn typed(number: u64) -> hdrfs::Refusal {
    typed_refusal(Refusal::of(number), 0)
}

fn told(number: u64) -> Result<(), hdrfs::Refusal> {
    match number {
        0 => Ok(()),
        _ => Err(typed(number)),
    }
}

/// Compares all that can be asked with a generated digest: its bytes at once, its parts from the
/// beginning, and the same parts fed to its made-up state.
pub fn compare(digest: &Digest, tally: &mut Digests) -> Result<(), Difference> {
    at_once(&digest.bytes, &digest.out, tally)?;
    let new = started(&digest.lent, tally)?;
    parts(&new, &digest.out, digest.parts(), tally)?;
    parts(&digest.lent, &digest.out, digest.parts(), tally)
}

fn at_once(bytes: &[u8], room: &[u8], tally: &mut Digests) -> Result<(), Difference> {
    let mut out = room.to_vec();
    let number = whole(bytes, &mut out)?;
    tally.sha256[number as usize] += 1;
    // The digest is at hand where there was room for it, and takes long for many bytes.
    let expected = match (number, out.first_chunk()) {
        (0, Some(digest)) => Ok(*digest),
        _ => independent::sha256(bytes).map_err(typed),
    };
    same(Volume::digest(bytes), expected, || "Volume::digest".into())
}

/// The state before any byte, in place of these bytes, or of as many as it needs where they are too
/// few.
fn started(lent: &[u8], tally: &mut Digests) -> Result<Vec<u8>, Difference> {
    let mut state = lent.to_vec();
    let number = start(&mut state)?;
    tally.start[number as usize] += 1;
    if number != 0 {
        state.resize(STATE_LENGTH, 7);
        same(start(&mut state)?, 0, || "sha256_start in a state".into())?;
    }
    same_list(hdrfs::Digest::new().state(), &state[..STATE_LENGTH], || {
        "Digest::new".into()
    })?;
    Ok(state)
}
