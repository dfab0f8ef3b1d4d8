//! The texts of one block, drawn one after the other as its layout has them.

use crate::rng::Rng;
use crate::text;

/// Which text of a block is at fault, counted from 0, and where in it.
#[derive(Clone, Copy, Debug, Default, PartialEq, Eq)]
pub struct Fault {
    pub text: u64,
    pub start: u64,
}

/// Draws texts and remembers the first that is at fault.
#[derive(Clone, Debug, Default)]
pub struct Texts {
    drawn: u64,
    first: Option<Fault>,
}

impl Texts {
    /// The next text, sound or not, of at most `most` bytes.
    pub fn draw(&mut self, rng: &mut Rng, most: usize, is_broken: bool) -> Vec<u8> {
        if !is_broken {
            self.skip();
            return text::sound(rng, most);
        }
        let broken = text::broken(rng, most);
        self.broken(&broken);
        broken.bytes
    }

    /// The next text is sound.
    pub fn skip(&mut self) {
        self.drawn += 1;
    }

    /// The next text is this one.
    pub fn broken(&mut self, broken: &text::Broken) {
        let fault = Fault {
            text: self.drawn,
            start: broken.start,
        };
        self.first.get_or_insert(fault);
        self.skip();
    }

    /// The first that is at fault, if one is.
    pub fn first(&self) -> Option<Fault> {
        self.first
    }
}
