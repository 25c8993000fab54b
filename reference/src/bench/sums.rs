//! All that a call gives, added up, so that no part of the work can be left out.

use crate::connection::Connection;
use crate::options::{Options, Reading};
use crate::ranges::Range;
use crate::refusal::{Place, Refusal};
use crate::segment::Segment;
use crate::verdict::{Judged, Taken, Verdict};

pub fn sum_of_reading(read: &Reading<Segment>) -> u64 {
    let sum = match &read.result {
        Ok(segment) => sum_of_segment(segment),
        Err(refusal) => sum_of_refusal(refusal),
    };
    sum + u64::from(read.steps)
}

fn sum_of_refusal(refusal: &Refusal) -> u64 {
    let place = refusal.place().map_or(0, |Place(place)| place);
    u64::from(refusal.number()) + u64::from(place)
}

fn sum_of_segment(segment: &Segment) -> u64 {
    u64::from(segment.source)
        + u64::from(segment.destination)
        + u64::from(segment.seq.0)
        + u64::from(segment.ack.0)
        + u64::from(segment.flags.0.count_ones())
        + u64::from(segment.window)
        + u64::from(segment.urgent)
        + sum_of_options(&segment.options)
        + segment.payload_offset as u64
        + segment.payload.len() as u64
}

fn sum_of_options(options: &Options) -> u64 {
    let stamps = options.timestamps.map_or(0, |stamps| {
        u64::from(stamps.value.0) + u64::from(stamps.echo.0)
    });
    u64::from(options.mss.unwrap_or(0))
        + u64::from(options.scale.unwrap_or(0))
        + u64::from(options.sack_permitted)
        + stamps
        + options.sack.iter().map(sum_of_edges).sum::<u64>()
        + u64::from(options.skipped)
}

pub fn sum_of_arrival(arrived: &Result<Judged, Refusal>) -> u64 {
    match arrived {
        Ok(judged) => sum_of_verdict(&judged.verdict) + u64::from(judged.skipped),
        Err(refusal) => sum_of_refusal(refusal),
    }
}

fn sum_of_verdict(verdict: &Verdict) -> u64 {
    match verdict {
        Verdict::Take(taken) => sum_of_taken(taken),
        verdict => u64::from(verdict.number()),
    }
}

// The number of a take is 0.
fn sum_of_taken(taken: &Taken) -> u64 {
    let part = &taken.part;
    u64::from(part.offset)
        + u64::from(part.length)
        + u64::from(part.fin)
        + taken.sack.iter().map(sum_of_edges).sum::<u64>()
}

pub fn sum_of_acknowledgment(written: &Result<usize, Refusal>) -> u64 {
    match written {
        Ok(length) => *length as u64,
        Err(refusal) => u64::from(refusal.number()),
    }
}

pub fn sum_of_record(record: &Connection) -> u64 {
    u64::from(record.rcv_nxt.0)
        + u64::from(record.snd_una.0)
        + u64::from(record.ts_recent.0)
        + u64::from(record.timer.rto)
}

fn sum_of_edges(block: Range) -> u64 {
    u64::from(block.left.0) + u64::from(block.right.0)
}
