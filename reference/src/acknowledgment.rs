//! Writing an acknowledgment, with timestamps and SACK blocks where they are in force.

use crate::connection::{Connection, MAX_WINDOW_FIELD};
use crate::options::{NOP, SACK, TIMESTAMPS};
use crate::ranges::Range;
use crate::refusal::Refusal;
use crate::segment::{ACK, HEADER_LENGTH};
use crate::serial::Stamp;

const TIMESTAMPS_LENGTH: usize = 12;
const MAX_BLOCKS: usize = 4;
const MAX_BLOCKS_WITH_TIMESTAMPS: usize = 3;

impl Connection {
    /// Writes an acknowledgment to the front of `buffer` and gives its length.
    pub fn acknowledge(
        &mut self,
        source: u16,
        destination: u16,
        clock: u64,
        buffer: &mut [u8],
    ) -> Result<usize, Refusal> {
        self.check_clock(clock)?;
        let length = self.acknowledgment_length();
        if buffer.len() < length {
            return Err(Refusal::BufferTooShort);
        }
        let (header, options) = buffer[..length].split_at_mut(HEADER_LENGTH);
        self.write_header(source, destination, length, header);
        self.write_options(clock, options);
        self.last_ack_sent = self.rcv_nxt;
        Ok(length)
    }

    /// The octets that an acknowledgment takes now.
    pub fn acknowledgment_length(&self) -> usize {
        let timestamps = if self.timestamps {
            TIMESTAMPS_LENGTH
        } else {
            0
        };
        let blocks = match self.announced_ranges().len() {
            0 => 0,
            count => 4 + 8 * count,
        };
        HEADER_LENGTH + timestamps + blocks
    }

    /// The held ranges that an acknowledgment announces, newest first.
    fn announced_ranges(&self) -> &[Range] {
        let most = match (self.sack, self.timestamps) {
            (false, _) => 0,
            (true, true) => MAX_BLOCKS_WITH_TIMESTAMPS,
            (true, false) => MAX_BLOCKS,
        };
        let held = self.held.as_slice();
        &held[..held.len().min(most)]
    }

    fn window_field(&self) -> u16 {
        (self.rcv_wnd >> self.rcv_shift).min(MAX_WINDOW_FIELD) as u16
    }

    fn write_header(&self, source: u16, destination: u16, length: usize, header: &mut [u8]) {
        header[0..2].copy_from_slice(&source.to_be_bytes());
        header[2..4].copy_from_slice(&destination.to_be_bytes());
        header[4..8].copy_from_slice(&self.snd_nxt.0.to_be_bytes());
        header[8..12].copy_from_slice(&self.rcv_nxt.0.to_be_bytes());
        header[12] = (length as u8 / 4) << 4;
        header[13] = ACK;
        header[14..16].copy_from_slice(&self.window_field().to_be_bytes());
        // The checksum and the urgent field are 0.
        header[16..20].fill(0);
    }

    fn write_options(&self, clock: u64, options: &mut [u8]) {
        let mut rest = options;
        if self.timestamps {
            let (option, behind) = rest.split_at_mut(TIMESTAMPS_LENGTH);
            write_timestamps(self.stamp(clock), self.ts_recent, option);
            rest = behind;
        }
        if !rest.is_empty() {
            write_blocks(self.announced_ranges(), rest);
        }
    }
}

fn write_timestamps(value: Stamp, echo: Stamp, option: &mut [u8]) {
    option[0..4].copy_from_slice(&[NOP, NOP, TIMESTAMPS, 10]);
    option[4..8].copy_from_slice(&value.0.to_be_bytes());
    option[8..12].copy_from_slice(&echo.0.to_be_bytes());
}

fn write_blocks(ranges: &[Range], option: &mut [u8]) {
    option[0..4].copy_from_slice(&[NOP, NOP, SACK, 8 * ranges.len() as u8 + 2]);
    for (block, range) in option[4..].chunks_exact_mut(8).zip(ranges) {
        block[0..4].copy_from_slice(&range.left.0.to_be_bytes());
        block[4..8].copy_from_slice(&range.right.0.to_be_bytes());
    }
}

#[cfg(test)]
mod tests {
    use super::*;
    use crate::serial::Seq;

    #[test]
    fn m8_timestamps_written() {
        let mut option = [0xff; 12];
        write_timestamps(Stamp(1), Stamp(2), &mut option);
        assert_eq!(option, [1, 1, 8, 0x0a, 0, 0, 0, 1, 0, 0, 0, 2]);
    }

    #[test]
    fn m9_range_written() {
        let range = Range {
            left: Seq(5500),
            right: Seq(9000),
        };
        let mut option = [0xff; 12];
        write_blocks(&[range], &mut option);
        assert_eq!(option, [1, 1, 5, 0x0a, 0, 0, 0x15, 0x7c, 0, 0, 0x23, 0x28]);
    }
}
