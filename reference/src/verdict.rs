//! The verdict on an arriving segment.

use crate::options::BlocksInPlace;
use crate::ranges::Range;
use crate::serial::Seq;

/// The verdict on a segment that is not refused, whatever it is, and how many unknown options were skipped.
#[derive(Clone, Copy, Debug, PartialEq, Eq)]
pub struct Judged<'a> {
    pub verdict: Verdict<'a>,
    pub skipped: u8,
}

/// What is done with a segment.
#[derive(Clone, Copy, Debug, PartialEq, Eq)]
pub enum Verdict<'a> {
    Take(Taken<'a>),
    Reject(Rejection),
}

/// What is done with a segment that is not taken.
#[derive(Clone, Copy, Debug, PartialEq, Eq)]
pub enum Rejection {
    Reset,
    DropSilently(Reason),
    DropWithAck(Reason),
}

/// Why a segment is dropped; the discriminant is the verdict's number.
#[derive(Clone, Copy, Debug, PartialEq, Eq)]
pub enum Reason {
    TimestampMissing = 21,
    TimestampOld = 22,
    UnacceptableReset = 23,
    Unacceptable = 24,
    ResetNotAtNext = 26,
    Syn = 27,
    NoAck = 28,
    AckOfUnsent = 29,
    NoRoom = 30,
    AckTooOld = 31,
}

const TAKE: u8 = 0;
const RESET: u8 = 25;

impl Verdict<'_> {
    pub fn number(&self) -> u8 {
        match *self {
            Verdict::Take(_) => TAKE,
            Verdict::Reject(rejection) => rejection.number(),
        }
    }
}

impl Rejection {
    fn number(self) -> u8 {
        match self {
            Rejection::Reset => RESET,
            Rejection::DropSilently(reason) | Rejection::DropWithAck(reason) => reason as u8,
        }
    }
}

/// What a taken segment brought.
#[derive(Clone, Copy, Debug, Default, PartialEq, Eq)]
pub struct Taken<'a> {
    pub part: Part,
    pub sack: ReportedBlocks<'a>,
}

/// The peer's SACK blocks that lie above SND.UNA and not past SND.NXT, picked on the way through them,
/// so that a verdict copies none.
#[derive(Clone, Copy, Debug, Default, PartialEq, Eq)]
pub struct ReportedBlocks<'a> {
    pub blocks: BlocksInPlace<'a>,
    pub snd_una: Seq,
    pub snd_nxt: Seq,
}

impl<'a> ReportedBlocks<'a> {
    pub fn iter(self) -> impl Iterator<Item = Range> + Clone + 'a {
        self.blocks
            .iter()
            .filter(move |&block| self.is_outstanding(block))
    }

    fn is_outstanding(&self, block: Range) -> bool {
        let left = self.snd_una.offset_of(block.left);
        let right = self.snd_una.offset_of(block.right);
        0 < left && left < right && right <= self.snd_una.offset_of(self.snd_nxt)
    }
}

/// The part of a segment that lies in the window, as offsets from RCV.NXT before the segment.
#[derive(Clone, Copy, Debug, Default, PartialEq, Eq)]
pub struct Part {
    pub offset: u32,
    pub length: u32,
    pub fin: bool,
}

impl Part {
    pub fn end(&self) -> u32 {
        self.offset + self.length
    }
}
