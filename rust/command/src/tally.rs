//! How many volumes were accepted, refused and not read.

use crate::failure::{Failure, Status};
use crate::output;

/// The counts; those that are not accepted are told as they come.
#[derive(Debug)]
pub struct Tally {
    json: bool,
    pub accepted: u64,
    pub refused: u64,
    pub unread: u64,
}

impl Tally {
    pub fn new(json: bool) -> Tally {
        Tally {
            json,
            accepted: 0,
            refused: 0,
            unread: 0,
        }
    }

    pub fn all(&self) -> u64 {
        self.accepted + self.refused + self.unread
    }

    /// Counts a volume that is not accepted, and says why.
    pub fn fail(&mut self, failure: &Failure) -> Result<(), Failure> {
        let is_refused = failure.status() == Status::Refused;
        *(if is_refused {
            &mut self.refused
        } else {
            &mut self.unread
        }) += 1;
        if self.json {
            return output::print(&failure.json()).map(|_| ());
        }
        if is_refused {
            return output::print(&format!("{failure}\n")).map(|_| ());
        }
        output::say(failure);
        Ok(())
    }

    /// How a line begins that holds of the accepted volumes alone.
    pub fn whole(&self) -> &'static str {
        match self.refused + self.unread {
            0 => "",
            _ => "of those accepted: ",
        }
    }

    /// How the command ends, given whether the accepted volumes belong together. A file that could not
    /// be read outweighs a refused one, since nothing is known about it.
    pub fn status(&self, belong: bool) -> Status {
        match (self.refused, self.unread, belong) {
            (_, 1.., _) => Status::WrongUse,
            (0, 0, true) => Status::Accepted,
            _ => Status::Refused,
        }
    }
}
