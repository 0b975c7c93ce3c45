//! The statuses that the command ends with.

use drf::Verdict;

#[derive(Clone, Copy, Debug, PartialEq, Eq)]
pub enum Status {
    /// Refuted; of the text form and of a table: printed.
    Done = 0,
    /// What was asked for is nothing that the command does, or the rows of a table can't be read.
    Usage = 2,
    /// Something could not be read or written. Never a verdict.
    Stream = 3,
    Open = 10,
    /// Or a table that is refused.
    Stopped = 20,
    /// A bad file, or a text that says no run file.
    Bad = 30,
}

impl Status {
    /// Of several files: that of the streams before any other, else the largest.
    pub fn and(self, other: Status) -> Status {
        match (self, other) {
            (Status::Stream, _) | (_, Status::Stream) => Status::Stream,
            _ if self as u8 >= other as u8 => self,
            _ => other,
        }
    }
}

impl From<Verdict> for Status {
    fn from(verdict: Verdict) -> Status {
        match verdict {
            Verdict::Refuted => Status::Done,
            Verdict::Open => Status::Open,
            Verdict::Stopped => Status::Stopped,
            Verdict::BadFile => Status::Bad,
        }
    }
}
