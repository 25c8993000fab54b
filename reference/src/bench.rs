//! Answers orders of rounds over a stream of calls, so that a harness can time the calls.

use std::io::{self, ErrorKind, Read, Write};

use crate::connection::Connection;
use crate::play::BAD_LINE;
use crate::script::{Bad, Call, Calls};

mod rounds;
mod sums;

use rounds::Measured;

/// The most octets that the prepared and the measured calls have together.
const MAX_STREAM: usize = 262_144;

/// A stream of these calls, and the orders after it.
pub fn stream(prepared: &[u8], measured: &[u8], orders: &[u32]) -> Vec<u8> {
    let lengths = [prepared.len(), measured.len()].map(|length| length as u32);
    let mut stream = lengths.map(u32::to_be_bytes).concat();
    stream.extend_from_slice(prepared);
    stream.extend_from_slice(measured);
    stream.extend(orders.iter().flat_map(|rounds| rounds.to_be_bytes()));
    stream
}

/// Reads a stream, then answers each order as soon as it is there.
pub fn bench(input: &mut impl Read, output: &mut impl Write) -> io::Result<()> {
    match read_stream(input)? {
        Some(measured) => answer_orders(measured, input, output),
        None => {
            output.write_all(BAD_LINE.as_bytes())?;
            output.flush()
        }
    }
}

/// The measured calls on the record that the prepared ones leave; none where the stream is bad.
fn read_stream(input: &mut impl Read) -> io::Result<Option<Measured>> {
    let (prepared, measured) = match (read_number(input)?, read_number(input)?) {
        (Some(prepared), Some(measured)) => (prepared as usize, measured as usize),
        _ => return Ok(None),
    };
    if prepared > MAX_STREAM || measured > MAX_STREAM - prepared {
        return Ok(None);
    }
    let mut calls = vec![0; prepared + measured];
    if !fill(input, &mut calls)? {
        return Ok(None);
    }
    let measured = calls.split_off(prepared);
    let record = prepare(&calls);
    Ok(record.ok().map(|record| Measured::new(record, measured)))
}

/// The record that the prepared calls leave; none where no opening of theirs was accepted.
fn prepare(calls: &[u8]) -> Result<Option<Connection>, Bad> {
    let mut record = None;
    for call in Calls::new(calls) {
        prepare_by(&call?, &mut record)?;
    }
    Ok(record)
}

// What a call is refused for is left out: the record then stays, as in a script.
fn prepare_by(call: &Call, record: &mut Option<Connection>) -> Result<(), Bad> {
    match (*call, record) {
        (Call::Open { opening, segment }, record) => {
            let opened = Connection::open(&opening, segment);
            *record = opened.ok().map(|opened| opened.connection).or(*record);
        }
        (Call::Arrive { clock, segment }, Some(connection)) => {
            let _ = connection.arrive(clock, segment);
        }
        (Call::Sent { count }, Some(connection)) => {
            let _ = connection.note_sent(count);
        }
        (Call::Window { window }, Some(connection)) => {
            let _ = connection.open_window(window);
        }
        (Call::Arrive { .. } | Call::Sent { .. } | Call::Window { .. }, None) => {}
        _ => return Err(Bad),
    }
    Ok(())
}

fn answer_orders(
    mut measured: Measured,
    input: &mut impl Read,
    output: &mut impl Write,
) -> io::Result<()> {
    while let Some(rounds) = read_number(input)? {
        writeln!(output, "{}", measured.take(rounds))?;
        output.flush()?;
    }
    Ok(())
}

/// A number of 4 octets; none where the input ends before its last.
fn read_number(input: &mut impl Read) -> io::Result<Option<u32>> {
    let mut octets = [0; 4];
    let filled = fill(input, &mut octets)?;
    Ok(filled.then_some(u32::from_be_bytes(octets)))
}

/// Fills `octets` from the input; false where it ends before that.
fn fill(input: &mut impl Read, octets: &mut [u8]) -> io::Result<bool> {
    match input.read_exact(octets) {
        Ok(()) => Ok(true),
        Err(error) if error.kind() == ErrorKind::UnexpectedEof => Ok(false),
        Err(error) => Err(error),
    }
}

#[cfg(test)]
mod tests;
