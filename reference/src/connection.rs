//! The connection record: opening, the verdict on an arriving segment, and what taking it changes.

use crate::options::{BlocksInPlace, Timestamps};
use crate::ranges::HeldRanges;
use crate::refusal::Refusal;
use crate::segment::Segment;
use crate::serial::{Seq, Stamp, HALF};
use crate::timer::{expected_samples, Sample, Timer};
use crate::verdict::{Judged, Part, Reason, Rejection, ReportedBlocks, Taken, Verdict};

pub const MAX_SHIFT: u8 = 14;
/// The largest value of the window field.
pub const MAX_WINDOW_FIELD: u32 = 65_535;
/// TS.Recent is outdated when more than these ms, 24 days, have gone by since it was set.
pub const OUTDATED_AFTER: u64 = 24 * 24 * 60 * 60 * 1_000;

const DEFAULT_MSS: u16 = 536;

/// Our side of the opening.
#[derive(Clone, Copy, Debug, PartialEq, Eq)]
pub struct Opening {
    pub iss: Seq,
    pub shift: Option<u8>,
    pub timestamps: bool,
    pub sack: bool,
    pub window: u32,
    pub offset: u32,
    pub clock: u64,
}

impl Opening {
    fn is_allowed(&self) -> bool {
        self.shift.unwrap_or(0) <= MAX_SHIFT && self.window <= MAX_WINDOW_FIELD
    }
}

/// The record of one connection.
#[derive(Clone, Copy, Debug, PartialEq, Eq)]
pub struct Connection {
    pub rcv_nxt: Seq,
    pub rcv_wnd: u32,
    pub last_ack_sent: Seq,
    pub rcv_shift: u8,
    pub snd_shift: u8,
    pub snd_una: Seq,
    pub snd_nxt: Seq,
    pub snd_wnd: u32,
    pub snd_wl1: Seq,
    pub snd_wl2: Seq,
    /// The largest SND.WND that the record ever had: MAX.SND.WND of RFC 5961.
    pub max_snd_wnd: u32,
    pub timestamps: bool,
    pub ts_recent: Stamp,
    pub ts_recent_clock: u64,
    pub offset: u32,
    pub sack: bool,
    pub mss: u16,
    pub held: HeldRanges,
    pub timer: Timer,
}

/// A record as it was opened, and how many unknown options of the peer's SYN were skipped.
#[derive(Clone, Copy, Debug, PartialEq, Eq)]
pub struct Opened {
    pub connection: Connection,
    pub skipped: u8,
}

impl Connection {
    /// Opens a record from our side of the opening and the peer's SYN segment.
    pub fn open(opening: &Opening, octets: &[u8]) -> Result<Opened, Refusal> {
        if !opening.is_allowed() {
            return Err(Refusal::OwnOffer);
        }
        let syn = Segment::read(octets).result?;
        if !syn.flags.syn() || syn.flags.rst() {
            return Err(Refusal::NotAnOpeningSyn);
        }
        let first = opening.iss.plus(1);
        let acknowledged = syn.flags.ack();
        if acknowledged && syn.ack != first {
            return Err(Refusal::WrongOpeningAck);
        }
        let (rcv_shift, snd_shift) = agreed_shifts(opening.shift, syn.options.scale);
        let stamp = syn.options.timestamps.filter(|_| opening.timestamps);
        // The window of a SYN is never scaled.
        let snd_wnd = u32::from(syn.window);
        let connection = Connection {
            rcv_nxt: syn.seq.plus(1),
            rcv_wnd: opening.window,
            last_ack_sent: syn.seq.plus(1),
            rcv_shift,
            snd_shift,
            snd_una: if acknowledged { first } else { opening.iss },
            snd_nxt: first,
            snd_wnd,
            snd_wl1: syn.seq,
            snd_wl2: if acknowledged { syn.ack } else { opening.iss },
            max_snd_wnd: snd_wnd,
            timestamps: stamp.is_some(),
            ts_recent: stamp.map_or(Stamp(0), |stamp| stamp.value),
            ts_recent_clock: opening.clock,
            offset: opening.offset,
            sack: opening.sack && syn.options.sack_permitted,
            mss: syn.options.mss.unwrap_or(DEFAULT_MSS),
            held: HeldRanges::default(),
            timer: Timer::default(),
        };
        Ok(Opened {
            connection,
            skipped: syn.options.skipped,
        })
    }

    /// Judges an arriving segment and, where it is taken, changes the record by it.
    pub fn arrive<'a>(&mut self, clock: u64, octets: &'a [u8]) -> Result<Judged<'a>, Refusal> {
        let segment = Segment::read(octets).result?;
        self.check_clock(clock)?;
        let skipped = segment.options.skipped;
        // Each answer is built in its place, so that a take is not copied.
        match self.judge(clock, &segment) {
            Ok(part) => Ok(Judged {
                verdict: Verdict::Take(self.take(clock, &segment, part)),
                skipped,
            }),
            Err(rejection) => Ok(Judged {
                verdict: Verdict::Reject(rejection),
                skipped,
            }),
        }
    }

    /// Notes `count` octets as sent.
    pub fn note_sent(&mut self, count: u32) -> Result<(), Refusal> {
        if u64::from(self.outstanding()) + u64::from(count) > u64::from(self.snd_wnd) {
            return Err(Refusal::BeyondSendWindow);
        }
        self.snd_nxt = self.snd_nxt.plus(count);
        Ok(())
    }

    /// Opens the receive window to `window`.
    pub fn open_window(&mut self, window: u32) -> Result<(), Refusal> {
        if window < self.rcv_wnd || window > self.max_rcv_wnd() {
            return Err(Refusal::ReceiveWindow);
        }
        self.rcv_wnd = window;
        Ok(())
    }

    /// Notes that the retransmission timer expired.
    pub fn expire(&mut self) {
        self.timer.expire();
    }

    /// The octets that are sent and not acknowledged; our SYN counts as one.
    pub fn outstanding(&self) -> u32 {
        self.snd_una.offset_of(self.snd_nxt)
    }

    /// The largest receive window that the window field can announce.
    pub fn max_rcv_wnd(&self) -> u32 {
        MAX_WINDOW_FIELD << self.rcv_shift
    }

    /// Our timestamp at a clock.
    pub fn stamp(&self, clock: u64) -> Stamp {
        Stamp::of_clock(clock, self.offset)
    }

    /// The round-trip sample that a segment gives where it is taken.
    pub fn sample_of(&self, clock: u64, segment: &Segment) -> Option<Sample> {
        let stamps = self.stamps_of(segment)?;
        if !self.is_new(segment.ack) {
            return None;
        }
        Some(Sample {
            round_trip: self.stamp(clock).since(stamps.echo),
            expected: expected_samples(self.outstanding(), self.mss),
        })
    }

    /// E8: the clock must not lie below the time at which TS.Recent was last set.
    pub(crate) fn check_clock(&self, clock: u64) -> Result<(), Refusal> {
        if clock < self.ts_recent_clock {
            return Err(Refusal::ClockWentBack);
        }
        Ok(())
    }

    /// The new part of a segment to be taken, or what is done with any other. The order counts.
    fn judge(&self, clock: u64, segment: &Segment) -> Result<Part, Rejection> {
        self.check_timestamp(clock, segment)?;
        self.check_window(segment)?;
        self.check_flags(segment)?;
        self.check_ack(segment.ack)?;
        let part = self.new_part(segment);
        if !self.has_room(&part) {
            return Err(Rejection::DropWithAck(Reason::NoRoom));
        }
        Ok(part)
    }

    fn check_timestamp(&self, clock: u64, segment: &Segment) -> Result<(), Rejection> {
        if !self.timestamps || segment.flags.rst() {
            return Ok(());
        }
        match segment.options.timestamps {
            None => Err(Rejection::DropSilently(Reason::TimestampMissing)),
            Some(stamps) if !self.is_fresh(clock, stamps.value) => {
                Err(Rejection::DropWithAck(Reason::TimestampOld))
            }
            Some(_) => Ok(()),
        }
    }

    fn check_window(&self, segment: &Segment) -> Result<(), Rejection> {
        if self.is_acceptable(segment) {
            Ok(())
        } else if segment.flags.rst() {
            Err(Rejection::DropSilently(Reason::UnacceptableReset))
        } else {
            Err(Rejection::DropWithAck(Reason::Unacceptable))
        }
    }

    fn check_flags(&self, segment: &Segment) -> Result<(), Rejection> {
        let flags = segment.flags;
        if flags.rst() && segment.seq == self.rcv_nxt {
            Err(Rejection::Reset)
        } else if flags.rst() {
            Err(Rejection::DropWithAck(Reason::ResetNotAtNext))
        } else if flags.syn() {
            Err(Rejection::DropWithAck(Reason::Syn))
        } else if !flags.ack() {
            Err(Rejection::DropSilently(Reason::NoAck))
        } else {
            Ok(())
        }
    }

    fn check_ack(&self, ack: Seq) -> Result<(), Rejection> {
        if self.snd_nxt.before(ack) {
            Err(Rejection::DropWithAck(Reason::AckOfUnsent))
        } else if self.is_too_old(ack) {
            Err(Rejection::DropWithAck(Reason::AckTooOld))
        } else {
            Ok(())
        }
    }

    /// Whether an ACK is more octets before SND.UNA than the largest window that the peer ever gave us.
    fn is_too_old(&self, ack: Seq) -> bool {
        let behind = ack.offset_of(self.snd_una);
        // 2^31 away counts as before, though neither number is before the other there.
        self.max_snd_wnd < behind && behind <= HALF
    }

    /// Whether a TSval is not before TS.Recent, or TS.Recent is outdated.
    fn is_fresh(&self, clock: u64, value: Stamp) -> bool {
        !value.before(self.ts_recent) || clock - self.ts_recent_clock > OUTDATED_AFTER
    }

    fn is_acceptable(&self, segment: &Segment) -> bool {
        let first = self.rcv_nxt.offset_of(segment.seq);
        match (segment.length(), self.rcv_wnd) {
            (0, 0) => first == 0,
            (0, window) => first < window,
            (_, 0) => false,
            (length, window) => {
                first < window || self.rcv_nxt.offset_of(last_number(segment.seq, length)) < window
            }
        }
    }

    /// The part of an acceptable segment between RCV.NXT and the right window edge.
    // Inlined, as a call would need the whole segment in memory.
    #[inline(always)]
    fn new_part(&self, segment: &Segment) -> Part {
        let length = segment.length();
        if length == 0 {
            return Part::default();
        }
        let first = self.rcv_nxt.offset_of(segment.seq);
        let last = self.rcv_nxt.offset_of(last_number(segment.seq, length));
        let start = if first < self.rcv_wnd { first } else { 0 };
        // The last number of an acceptable segment is outside only past the right edge.
        let whole = last < self.rcv_wnd;
        let end = if whole { last + 1 } else { self.rcv_wnd };
        Part {
            offset: start,
            length: end - start,
            fin: segment.flags.fin() && whole,
        }
    }

    fn has_room(&self, part: &Part) -> bool {
        part.offset == 0 || self.held.has_room(self.rcv_nxt, part.offset, part.end())
    }

    fn take<'a>(&mut self, clock: u64, segment: &Segment<'a>, part: Part) -> Taken<'a> {
        // The sample's N goes by what is outstanding before the ACK.
        let sample = self.sample_of(clock, segment);
        if let Some(stamps) = self.stamps_of(segment) {
            self.update_ts_recent(clock, segment.seq, stamps);
        }
        self.receive(&part);
        self.process_ack(segment);
        if let Some(sample) = sample {
            // A sample that the timer refuses is left out, and the segment is taken all the same.
            let _ = self.timer.sample(sample);
        }
        Taken {
            part,
            sack: self.reported_blocks(segment.options.sack),
        }
    }

    /// The segment's timestamps where they are in force.
    fn stamps_of(&self, segment: &Segment) -> Option<Timestamps> {
        segment.options.timestamps.filter(|_| self.timestamps)
    }

    fn update_ts_recent(&mut self, clock: u64, seq: Seq, stamps: Timestamps) {
        if self.is_fresh(clock, stamps.value) && seq.at_or_before(self.last_ack_sent) {
            self.ts_recent = stamps.value;
            self.ts_recent_clock = clock;
        }
    }

    fn receive(&mut self, part: &Part) {
        if part.length == 0 {
            return;
        }
        if part.offset == 0 {
            let advance = self.held.advance(self.rcv_nxt, part.end());
            self.rcv_nxt = self.rcv_nxt.plus(advance);
            // The right window edge stays, so the window shrinks.
            self.rcv_wnd -= advance;
        } else {
            self.held.hold(self.rcv_nxt, part.offset, part.end());
        }
    }

    fn is_new(&self, ack: Seq) -> bool {
        let acked = self.snd_una.offset_of(ack);
        0 < acked && acked <= self.outstanding()
    }

    /// Moves SND.UNA and the send window.
    fn process_ack(&mut self, segment: &Segment) {
        let is_new = self.is_new(segment.ack);
        if (is_new || segment.ack == self.snd_una) && self.updates_window(segment) {
            self.snd_wnd = u32::from(segment.window) << self.snd_shift;
            self.max_snd_wnd = self.max_snd_wnd.max(self.snd_wnd);
            self.snd_wl1 = segment.seq;
            self.snd_wl2 = segment.ack;
        }
        if is_new {
            self.snd_una = segment.ack;
        }
    }

    fn updates_window(&self, segment: &Segment) -> bool {
        self.snd_wl1.before(segment.seq)
            || (self.snd_wl1 == segment.seq && self.snd_wl2.at_or_before(segment.ack))
    }

    /// The peer's SACK blocks by the record as it is now; none where SACK is not in force.
    fn reported_blocks<'a>(&self, blocks: BlocksInPlace<'a>) -> ReportedBlocks<'a> {
        let none = BlocksInPlace::default();
        ReportedBlocks {
            blocks: if self.sack { blocks } else { none },
            snd_una: self.snd_una,
            snd_nxt: self.snd_nxt,
        }
    }
}

/// Scaling is in force only if both sides offered it; a peer's shift above 14 counts as 14.
fn agreed_shifts(own: Option<u8>, peer: Option<u8>) -> (u8, u8) {
    match (own, peer) {
        (Some(own), Some(peer)) => (own, peer.min(MAX_SHIFT)),
        _ => (0, 0),
    }
}

fn last_number(seq: Seq, length: u32) -> Seq {
    seq.plus(length - 1)
}

#[cfg(test)]
mod tests;
