//! A run of ACKs that leaves WL2 behind by about 2^31: single random calls do not get there.

use crate::builder::SegmentBuilder;
use crate::connection::Connection;
use crate::script::Call;
use crate::serial::{Seq, Stamp, HALF};

use super::edges::beside;
use super::opening::random_window_field;
use super::Generator;

/// The least shift of the send window with which few calls are enough.
const LEAST_SHIFT: u8 = 13;
const MOST_CALLS: usize = 12;

/// A run that has begun; octets are sent and acknowledged in turn.
#[derive(Clone, Copy)]
pub struct AckRun {
    /// How far above WL2 the last ACK is to stand.
    target: u32,
    calls_left: usize,
    ack_is_next: bool,
}

/// Whether the record lets such a run begin.
pub fn is_possible(connection: &Connection) -> bool {
    connection.snd_shift >= LEAST_SHIFT && connection.rcv_wnd > 3
}

impl Generator {
    pub(super) fn begin_ack_run(&mut self, connection: &Connection) {
        // WL1 ahead of RCV.NXT, so that ACKs at RCV.NXT move SND.UNA alone.
        let ahead = connection.rcv_nxt.plus(1 + self.random.below_u32(2));
        self.add_pure_ack(connection, ahead, u16::MAX);
        self.ack_run = Some(AckRun {
            target: beside(&mut self.random, HALF),
            calls_left: MOST_CALLS,
            ack_is_next: false,
        });
    }

    /// Makes the next call of a run.
    pub(super) fn continue_ack_run(&mut self, connection: &Connection, run: AckRun) {
        let reached = connection.snd_wl2.offset_of(connection.snd_nxt);
        if !run.ack_is_next {
            let room = connection.snd_wnd.saturating_sub(connection.outstanding());
            let count = room.min(run.target.saturating_sub(reached));
            self.push(&Call::Sent { count });
        } else if reached == run.target {
            let window = random_window_field(&mut self.random);
            self.add_pure_ack(connection, connection.snd_wl1, window);
            return;
        } else {
            self.add_pure_ack(connection, connection.rcv_nxt, u16::MAX);
        }
        if run.calls_left > 0 {
            self.ack_run = Some(AckRun {
                target: run.target,
                calls_left: run.calls_left - 1,
                ack_is_next: !run.ack_is_next,
            });
        }
    }

    /// A segment without payload that acknowledges all that is sent.
    fn add_pure_ack(&mut self, connection: &Connection, seq: Seq, window: u16) {
        let mut segment = SegmentBuilder::data(seq, connection.snd_nxt, 0).window(window);
        if connection.timestamps {
            segment = segment.timestamps(connection.ts_recent, Stamp(self.random.next_u32()));
        }
        self.push(&Call::Arrive {
            clock: connection.ts_recent_clock,
            segment: &segment.build(),
        });
    }
}
