//! Rounds of measured calls, each from the record as prepared.

use std::mem;

use super::sums::{sum_of_acknowledgment, sum_of_arrival, sum_of_reading, sum_of_record};
use crate::connection::Connection;
use crate::octets::{u16_at, u32_at, u64_at};
use crate::script::{Call, Calls, HEAD_LENGTH};
use crate::segment::Segment;

const CLOCK_LENGTH: usize = 8;
const ACKNOWLEDGE_LENGTH: usize = 12;

/// What the measured calls all are.
#[derive(Clone, Copy, Debug, PartialEq, Eq)]
enum Kind {
    Read,
    Arrive,
    Acknowledge,
}

/// Measured calls and the record that each round starts from.
pub struct Measured {
    prepared: Option<Connection>,
    kind: Option<Kind>,
    pub(super) calls: Vec<u8>,
}

impl Measured {
    pub fn new(prepared: Option<Connection>, calls: Vec<u8>) -> Measured {
        Measured {
            prepared,
            kind: kind_of(&calls),
            calls,
        }
    }

    /// Takes the calls for so many rounds and gives the sum; 0 where there is nothing to measure.
    pub fn take(&mut self, rounds: u32) -> u64 {
        let calls = &mut self.calls;
        match (self.kind, &self.prepared) {
            (Some(Kind::Read), _) => read_rounds(rounds, calls),
            (Some(Kind::Arrive), Some(record)) => record_rounds(rounds, record, calls, arrive),
            (Some(Kind::Acknowledge), Some(record)) => {
                record_rounds(rounds, record, calls, acknowledge)
            }
            _ => 0,
        }
    }
}

/// The kind of the calls; none where it is not measured, or they are not all whole and of one kind.
fn kind_of(calls: &[u8]) -> Option<Kind> {
    let mut kinds = Calls::new(calls).map(|call| match call {
        Ok(Call::Read { .. }) => Some(Kind::Read),
        Ok(Call::Arrive { .. }) => Some(Kind::Arrive),
        Ok(Call::Acknowledge { .. }) => Some(Kind::Acknowledge),
        _ => None,
    });
    let first = kinds.next().flatten();
    first.filter(|_| kinds.all(|kind| kind == first))
}

fn read_rounds(rounds: u32, calls: &mut [u8]) -> u64 {
    let mut sum = 0u64;
    for _ in 0..rounds {
        for segment in Bodies::new(calls) {
            sum = sum.wrapping_add(sum_of_reading(&Segment::read(segment)));
        }
    }
    sum
}

/// Rounds of calls that change the record, which starts anew in each.
fn record_rounds(
    rounds: u32,
    prepared: &Connection,
    calls: &mut [u8],
    call: impl Fn(&mut Connection, &mut [u8]) -> u64,
) -> u64 {
    let mut sum = 0u64;
    for _ in 0..rounds {
        let mut record = *prepared;
        for body in Bodies::new(calls) {
            sum = sum.wrapping_add(call(&mut record, body));
        }
        sum = sum.wrapping_add(sum_of_record(&record));
    }
    sum
}

#[inline]
fn arrive(record: &mut Connection, body: &mut [u8]) -> u64 {
    let (clock, segment) = body.split_at(CLOCK_LENGTH);
    sum_of_arrival(&record.arrive(u64_at(clock, 0), segment))
}

#[inline]
fn acknowledge(record: &mut Connection, body: &mut [u8]) -> u64 {
    let (fields, buffer) = body.split_at_mut(ACKNOWLEDGE_LENGTH);
    let (source, destination) = (u16_at(fields, 0), u16_at(fields, 2));
    let clock = u64_at(fields, 4);
    sum_of_acknowledgment(&record.acknowledge(source, destination, clock, buffer))
}

/// The bodies of calls that are known to be whole, open to writing in place.
struct Bodies<'a> {
    rest: &'a mut [u8],
}

impl<'a> Bodies<'a> {
    fn new(calls: &'a mut [u8]) -> Bodies<'a> {
        Bodies { rest: calls }
    }
}

impl<'a> Iterator for Bodies<'a> {
    type Item = &'a mut [u8];

    #[inline]
    fn next(&mut self) -> Option<&'a mut [u8]> {
        if self.rest.is_empty() {
            return None;
        }
        let (head, rest) = mem::take(&mut self.rest).split_at_mut(HEAD_LENGTH);
        let (body, rest) = rest.split_at_mut(u32_at(head, 1) as usize);
        self.rest = rest;
        Some(body)
    }
}
