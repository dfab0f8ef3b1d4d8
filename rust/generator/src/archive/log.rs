//! What is logged in an archive, volume by volume.

use crate::draft::{any_stat, other_mode};
use crate::image::{self, Stat};
use crate::rng::Rng;
use crate::{text, time};

/// Names are short here: odd texts matter, and long ones are in other cases.
const NAME: usize = 40;

/// A header or a block. The extents of a file are chosen when the lengths of
/// all volumes are known.
pub enum Piece {
    Image(Vec<u8>),
    File { stat: Stat, extents: usize },
}

impl Piece {
    pub fn length(&self) -> u64 {
        match self {
            Piece::Image(image) => image.len() as u64,
            Piece::File { extents, .. } => 75 + 57 * *extents as u64,
        }
    }
}

/// A link that was made and not taken away.
struct Link {
    child: u64,
    parent: u64,
    name: Vec<u8>,
}

/// What the log of an archive goes by.
pub struct Log {
    id: [u8; 16],
    /// The inodes that it is about: few, so that most are written again.
    pub numbers: Vec<u64>,
    standing: Vec<Link>,
    last: Option<u64>,
}

impl Log {
    pub fn new(rng: &mut Rng) -> Log {
        let mut id = [0; 16];
        id.fill_with(|| rng.word() as u8);
        let many = rng.between(1, 7);
        let mut numbers: Vec<u64> = (0..many).map(|_| rng.number()).collect();
        numbers.sort_unstable();
        numbers.dedup();
        Log {
            id,
            numbers,
            standing: Vec::new(),
            last: None,
        }
    }

    /// The header, the table if one is due, and the blocks of a volume.
    pub fn volume(&mut self, rng: &mut Rng, sequence: u64) -> Vec<Piece> {
        let mut previous = [0; 32];
        if sequence > 0 && !rng.once_in(10) {
            previous.fill_with(|| rng.word() as u8);
        }
        let mut plan = vec![Piece::Image(image::header(sequence, &self.id, &previous))];
        if sequence > 0 {
            plan.push(Piece::Image(self.table(rng)));
        }
        // From one volume to the next a time may be lower, and then a block's
        // time does not tell whether it is the current one.
        if rng.once_in(3) {
            self.last = None;
        }
        let many = match rng.below(12) {
            0 => 0,
            1 => rng.between(10, 24),
            _ => rng.between(1, 9),
        };
        for _ in 0..many {
            let time = time::following(rng, self.last);
            self.last = Some(time);
            if rng.once_in(16) {
                plan.extend(self.linked_file(rng, time));
            } else {
                plan.push(self.block(rng, time));
            }
        }
        plan
    }

    /// The links that stand, or some of them, or others.
    fn table(&mut self, rng: &mut Rng) -> Vec<u8> {
        match rng.below(8) {
            0 => self.standing.clear(),
            1 => self.standing.retain(|_| !rng.once_in(3)),
            2 => {
                let child = self.number(rng);
                self.stand(rng, child);
            }
            _ => {}
        }
        let links: Vec<Vec<u8>> = self
            .standing
            .iter()
            .map(|link| image::table_link(link.child, link.parent, &link.name))
            .collect();
        image::table(links.len() as u64, &links.concat())
    }

    /// A link more, unless its parent has the name already.
    fn stand(&mut self, rng: &mut Rng, child: u64) {
        let parent = self.number(rng);
        let name = text::sound(rng, NAME);
        let taken = |link: &Link| link.parent == parent && link.name == name;
        if !self.standing.iter().any(taken) {
            self.standing.push(Link {
                child,
                parent,
                name,
            });
        }
    }

    /// Mostly one of the inodes that the log is about.
    fn number(&self, rng: &mut Rng) -> u64 {
        if rng.once_in(20) {
            rng.number()
        } else {
            rng.pick(&self.numbers)
        }
    }

    fn block(&mut self, rng: &mut Rng, time: u64) -> Piece {
        match rng.below(16) {
            0..=4 => {
                let inode = rng.pick(&self.numbers);
                self.file(rng, time, inode)
            }
            5..=7 => {
                let most = rng.pick(&[10, 100, 600]);
                let length = rng.index(most);
                Piece::Image(image::data(time, &rng.bytes(length)))
            }
            8 => self.symbolic_link(rng, time),
            9 => self.other_inode(rng, time),
            10 | 11 => {
                let child = self.number(rng);
                self.link(rng, time, child)
            }
            12 | 13 => self.unlink(rng, time),
            14 => self.attribute(rng, time),
            _ => {
                let old = text::sound(rng, NAME);
                let new = text::sound(rng, NAME);
                Piece::Image(image::rename(time, &old, &new))
            }
        }
    }

    fn stat(&self, rng: &mut Rng, time: u64, mode: u16, size: u64) -> Stat {
        Stat {
            inode: rng.pick(&self.numbers),
            mode,
            ..any_stat(rng, time, size)
        }
    }

    /// A regular file, whose size is chosen with its extents.
    fn file(&self, rng: &mut Rng, time: u64, inode: u64) -> Piece {
        let extents = match rng.below(4_000) {
            0..=5 => 1_024,
            6..=40 => rng.between(20, 120),
            41..=300 => 0,
            _ => rng.between(1, 9),
        };
        let mode = 0x8000 | rng.below(4_096) as u16;
        let stat = Stat {
            inode,
            mode,
            ..any_stat(rng, time, 0)
        };
        Piece::File {
            stat,
            extents: extents as usize,
        }
    }

    /// A link and the file that it names, at one time: a fast logger writes
    /// them in the same microsecond.
    fn linked_file(&mut self, rng: &mut Rng, time: u64) -> [Piece; 2] {
        let number = rng.pick(&self.numbers);
        [self.link(rng, time, number), self.file(rng, time, number)]
    }

    fn symbolic_link(&self, rng: &mut Rng, time: u64) -> Piece {
        let target = text::sound(rng, NAME);
        let mode = 0xA000 | rng.below(4_096) as u16;
        let stat = self.stat(rng, time, mode, 70 + target.len() as u64);
        Piece::Image(image::inode(&stat, &target))
    }

    fn other_inode(&self, rng: &mut Rng, time: u64) -> Piece {
        let mode = other_mode(rng);
        Piece::Image(image::inode(&self.stat(rng, time, mode, 70), b""))
    }

    /// A link block is sound even where the same link stands already.
    fn link(&mut self, rng: &mut Rng, time: u64, child: u64) -> Piece {
        let before = self.standing.len();
        self.stand(rng, child);
        Piece::Image(match self.standing.get(before) {
            Some(new) => image::link(image::LINK, time, new.child, new.parent, &new.name),
            None => image::link(image::LINK, time, child, 1, b"again"),
        })
    }

    /// Takes a link away that stands, or one that never stood.
    fn unlink(&mut self, rng: &mut Rng, time: u64) -> Piece {
        if self.standing.is_empty() || rng.once_in(6) {
            let (child, name) = (self.number(rng), text::sound(rng, NAME));
            return Piece::Image(image::link(image::UNLINK, time, child, 1, &name));
        }
        let gone = self.standing.remove(rng.index(self.standing.len()));
        let image = image::link(image::UNLINK, time, gone.child, gone.parent, &gone.name);
        Piece::Image(image)
    }

    fn attribute(&self, rng: &mut Rng, time: u64) -> Piece {
        let (inode, name) = (self.number(rng), text::sound(rng, NAME));
        Piece::Image(if rng.once_in(2) {
            image::removed(time, inode, &name)
        } else {
            let length = rng.index(30);
            image::xattr(time, inode, &name, &rng.bytes(length))
        })
    }
}
