//! Builds segments as octets for tests and scripts.

use crate::options::{MSS, SACK, SACK_PERMITTED, TIMESTAMPS, WINDOW_SCALE};
use crate::ranges::Range;
use crate::segment::{ACK, HEADER_LENGTH, SYN};
use crate::serial::{Seq, Stamp};

/// The most octets that options can take.
pub const MAX_OPTIONS: usize = 40;

/// A segment to be built; fields that are not set keep a plain value.
#[derive(Clone, Debug)]
pub struct SegmentBuilder {
    seq: Seq,
    ack: Seq,
    flags: u8,
    window: u16,
    urgent: u16,
    options: Vec<u8>,
    payload: Vec<u8>,
}

impl SegmentBuilder {
    pub fn new(seq: Seq, ack: Seq, flags: u8) -> SegmentBuilder {
        SegmentBuilder {
            seq,
            ack,
            flags,
            window: 8_192,
            urgent: 0,
            options: Vec::new(),
            payload: Vec::new(),
        }
    }

    /// A SYN without ACK.
    pub fn syn(seq: Seq) -> SegmentBuilder {
        SegmentBuilder::new(seq, Seq(0), SYN)
    }

    /// A segment with ACK and `length` octets of payload.
    pub fn data(seq: Seq, ack: Seq, length: usize) -> SegmentBuilder {
        SegmentBuilder::new(seq, ack, ACK).payload(length)
    }

    pub fn flags(mut self, flags: u8) -> Self {
        self.flags = flags;
        self
    }

    pub fn window(mut self, window: u16) -> Self {
        self.window = window;
        self
    }

    pub fn urgent(mut self, urgent: u16) -> Self {
        self.urgent = urgent;
        self
    }

    /// A payload of so many octets, each different from the one before it.
    pub fn payload(mut self, length: usize) -> Self {
        self.payload = (0..length).map(|at| at as u8).collect();
        self
    }

    /// Appends octets to the options as they are.
    pub fn options(mut self, octets: &[u8]) -> Self {
        self.options.extend_from_slice(octets);
        self
    }

    pub fn mss(self, mss: u16) -> Self {
        let [high, low] = mss.to_be_bytes();
        self.options(&[MSS, 4, high, low])
    }

    pub fn scale(self, shift: u8) -> Self {
        self.options(&[WINDOW_SCALE, 3, shift])
    }

    pub fn sack_permitted(self) -> Self {
        self.options(&[SACK_PERMITTED, 2])
    }

    pub fn timestamps(self, value: Stamp, echo: Stamp) -> Self {
        self.options(&[TIMESTAMPS, 10])
            .options(&value.0.to_be_bytes())
            .options(&echo.0.to_be_bytes())
    }

    pub fn sack(mut self, blocks: &[Range]) -> Self {
        self.options.extend([SACK, 8 * blocks.len() as u8 + 2]);
        for block in blocks {
            self.options.extend_from_slice(&block.left.0.to_be_bytes());
            self.options.extend_from_slice(&block.right.0.to_be_bytes());
        }
        self
    }

    /// The octets that the options still have room for.
    pub fn option_room(&self) -> usize {
        MAX_OPTIONS - self.options.len()
    }

    /// The segment as octets, its options filled up with kind 0 to a multiple of 4.
    pub fn build(&self) -> Vec<u8> {
        let header_length = HEADER_LENGTH + (self.options.len() + 3) / 4 * 4;
        let mut octets = Vec::with_capacity(header_length + self.payload.len());
        octets.extend_from_slice(&[0x30, 0x39, 0x01, 0xbb]);
        octets.extend_from_slice(&self.seq.0.to_be_bytes());
        octets.extend_from_slice(&self.ack.0.to_be_bytes());
        octets.extend_from_slice(&[(header_length as u8 / 4) << 4, self.flags]);
        octets.extend_from_slice(&self.window.to_be_bytes());
        // The checksum is not looked at, so it holds octets that would show if it were.
        octets.extend_from_slice(&[0xab, 0xcd]);
        octets.extend_from_slice(&self.urgent.to_be_bytes());
        octets.extend_from_slice(&self.options);
        octets.resize(header_length, 0);
        octets.extend_from_slice(&self.payload);
        octets
    }
}
