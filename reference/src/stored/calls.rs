//! The list of calls that the stored script is put together from.

use crate::builder::SegmentBuilder;
use crate::cases::{opening, syn, CLOCK, RECENT};
use crate::connection::Opening;
use crate::script::Call;
use crate::serial::Stamp;
use crate::timer::Sample;

#[cfg(test)]
use crate::{
    connection::Connection,
    play::{play, Player},
    script::Calls,
};

const FILLER: u8 = 0xee;

/// Encoded calls, one behind the other.
#[derive(Default)]
pub struct CallList {
    script: Vec<u8>,
}

impl CallList {
    pub fn into_script(self) -> Vec<u8> {
        self.script
    }

    pub fn add(&mut self, call: &Call) {
        call.encode(&mut self.script);
    }

    /// Appends a call that is encoded already.
    pub fn add_encoded(&mut self, call: &[u8]) {
        self.script.extend_from_slice(call);
    }

    pub fn read(&mut self, segment: &[u8]) {
        self.add(&Call::Read { segment });
    }

    /// By read and by the C entry.
    pub fn read_by_both(&mut self, segment: &[u8]) {
        self.read(segment);
        self.add(&Call::Refusal { segment });
    }

    pub fn open(&mut self, opening: &Opening, syn: &SegmentBuilder) {
        self.add(&Call::Open {
            opening: *opening,
            segment: &syn.build(),
        });
    }

    pub fn open_under_profile(&mut self, opening: &Opening, syn: &SegmentBuilder) {
        self.add(&Call::OpenUnderProfile {
            opening: *opening,
            segment: &syn.build(),
        });
    }

    /// Opens the shared record with nothing in force.
    pub fn open_plain(&mut self) {
        self.open(&opening(), &syn());
    }

    /// Opens the shared record with a receive window of its own.
    pub fn open_with_window(&mut self, window: u32) {
        self.open(
            &Opening {
                window,
                ..opening()
            },
            &syn(),
        );
    }

    /// Opens the shared record with SACK in force.
    pub fn open_with_sack(&mut self) {
        let opening = Opening {
            sack: true,
            ..opening()
        };
        self.open(&opening, &syn().sack_permitted());
    }

    /// Opens the shared record with timestamps and SACK in force.
    pub fn open_with_timestamps(&mut self) {
        let opening = Opening {
            timestamps: true,
            sack: true,
            ..opening()
        };
        let syn = syn().sack_permitted().timestamps(RECENT, Stamp(0));
        self.open(&opening, &syn);
    }

    /// Opens the shared record with scaling in force, both shifts the same.
    pub fn open_with_shift(&mut self, shift: u8) {
        let opening = Opening {
            shift: Some(shift),
            ..opening()
        };
        self.open(&opening, &syn().scale(shift));
    }

    /// A segment arrives at the clock of the opening.
    pub fn arrive(&mut self, segment: &SegmentBuilder) {
        self.arrive_at(CLOCK, segment);
    }

    pub fn arrive_at(&mut self, clock: u64, segment: &SegmentBuilder) {
        self.arrive_octets(clock, &segment.build());
    }

    pub fn arrive_octets(&mut self, clock: u64, segment: &[u8]) {
        self.add(&Call::Arrive { clock, segment });
    }

    /// Writes an acknowledgment to a buffer of so many octets, at the clock of the opening.
    pub fn acknowledge(&mut self, length: usize) {
        self.acknowledge_at(CLOCK, length);
    }

    pub fn acknowledge_at(&mut self, clock: u64, length: usize) {
        self.add(&Call::Acknowledge {
            source: 443,
            destination: 12_345,
            clock,
            buffer: &vec![FILLER; length],
        });
    }

    pub fn sent(&mut self, count: u32) {
        self.add(&Call::Sent { count });
    }

    pub fn window(&mut self, window: u32) {
        self.add(&Call::Window { window });
    }

    /// A sample with N = 1.
    pub fn sample(&mut self, round_trip: u32) {
        self.sample_with_n(round_trip, 1);
    }

    pub fn sample_with_n(&mut self, round_trip: u32, expected: u32) {
        self.add(&Call::Sample(Sample::new(round_trip, expected)));
    }

    pub fn distance(&mut self, a: u32, b: u32) {
        self.add(&Call::Distance { a, b });
        self.add(&Call::DistanceFromC { a, b });
    }
}

#[cfg(test)]
impl CallList {
    /// What these cases answer, of the lines that begin with this word.
    pub fn answers(cases: fn(&mut CallList), word: &str) -> Vec<String> {
        let mut calls = CallList::default();
        cases(&mut calls);
        let lines = play(&calls.script);
        let answers = lines.lines().filter(|line| line.starts_with(word));
        answers.map(str::to_string).collect()
    }

    /// The record that the calls lead to.
    pub fn connection(&self) -> Connection {
        let mut player = Player::default();
        for call in Calls::new(&self.script) {
            player.play(&call.unwrap(), &mut String::new());
        }
        *player.connection().unwrap()
    }
}
