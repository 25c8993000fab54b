//! Plays the calls of a script on one connection record and one free-standing timer, a line for each.

use std::fmt::{self, Display, Write};

use crate::connection::{Connection, Opened};
use crate::options::Reading;
use crate::profile;
use crate::ranges::Range;
use crate::refusal::{Lack, Refusal};
use crate::script::{Call, Calls};
use crate::segment::{find_option, refusal_number, Segment};
use crate::serial::distance;
use crate::timer::{milliseconds, Timer};
use crate::verdict::{Judged, Taken, Verdict};

/// The line for a call that cannot be decoded.
pub const BAD_LINE: &str = "bad\n";

const CLOSED_LINE: &str = "closed\n";

/// The record and the free-standing timer that the calls of a script move.
#[derive(Default)]
pub struct Player {
    connection: Option<Connection>,
    timer: Timer,
}

/// The lines of a whole script.
pub fn play(script: &[u8]) -> String {
    let mut player = Player::default();
    let mut out = String::new();
    for call in Calls::new(script) {
        match call {
            Ok(call) => player.play(&call, &mut out),
            Err(_) => out.push_str(BAD_LINE),
        }
    }
    out
}

/// Whether the lines of a call say that it opened a record.
pub fn say_opened(lines: &str) -> bool {
    lines.starts_with("open 0 ") || lines.starts_with("profile 0 ")
}

impl Player {
    pub fn connection(&self) -> Option<&Connection> {
        self.connection.as_ref()
    }

    /// Makes one call and appends its lines.
    pub fn play(&mut self, call: &Call, out: &mut String) {
        self.write_lines(call, out)
            .expect("a string takes any text");
    }

    fn write_lines(&mut self, call: &Call, out: &mut String) -> fmt::Result {
        match *call {
            Call::Read { segment } => write_read(segment, out),
            Call::Find { kinds, segment } => {
                writeln!(out, "find {}", Hex(find_option(segment, kinds)))
            }
            Call::Distance { a, b } | Call::DistanceFromC { a, b } => {
                writeln!(out, "distance {}", distance(a, b))
            }
            Call::Open { opening, segment } => {
                let opened = Connection::open(&opening, segment);
                write!(out, "open {}", number(&opened))?;
                self.keep(opened, out)
            }
            Call::OpenUnderProfile { opening, segment } => {
                let opened = profile::open(&opening, segment);
                let lack = opened.err().and_then(Refusal::lack).map(Lack::number);
                write!(out, "profile {} {}", number(&opened), OrDash(lack))?;
                self.keep(opened, out)
            }
            Call::Timer => {
                self.timer = Timer::default();
                writeln!(out, "timer")?;
                self.write_timer(out)
            }
            Call::Sample(sample) => {
                writeln!(out, "sample {}", number(&self.timer.sample(sample)))?;
                self.write_timer(out)
            }
            Call::Expiry => {
                self.timer.expire();
                writeln!(out, "expiry")?;
                self.write_timer(out)
            }
            Call::Refusal { segment } => writeln!(out, "refusal {}", refusal_number(segment)),
            Call::Milliseconds {
                smoothed,
                variation,
            } => writeln!(out, "milliseconds {}", milliseconds(smoothed, variation)),
            Call::Arrive { clock, segment } => self.on_record(out, |connection, out| {
                write_arrive(connection.arrive(clock, segment), out)
            }),
            Call::Sent { count } => self.on_record(out, |connection, out| {
                writeln!(out, "sent {}", number(&connection.note_sent(count)))
            }),
            Call::Window { window } => self.on_record(out, |connection, out| {
                writeln!(out, "window {}", number(&connection.open_window(window)))
            }),
            Call::Acknowledge {
                source,
                destination,
                clock,
                buffer,
            } => self.on_record(out, |connection, out| {
                let mut buffer = buffer.to_vec();
                let written = connection.acknowledge(source, destination, clock, &mut buffer);
                let length = written.unwrap_or(0);
                writeln!(
                    out,
                    "acknowledge {} {} {}",
                    number(&written),
                    length,
                    Hex(&buffer)
                )
            }),
            Call::Expire => self.on_record(out, |connection, out| {
                connection.expire();
                writeln!(out, "expire")
            }),
        }
    }

    /// Ends the line of an opening and keeps its record; the one that was there stays where the opening is refused.
    fn keep(&mut self, opened: Result<Opened, Refusal>, out: &mut String) -> fmt::Result {
        writeln!(out, " {}", Where(opened.map(|opened| opened.skipped)))?;
        let connection = opened.ok().map(|opened| opened.connection);
        self.connection = connection.or(self.connection);
        self.write_record(out)
    }

    /// Makes a call that needs an open record, then writes the record.
    fn on_record(
        &mut self,
        out: &mut String,
        call: impl FnOnce(&mut Connection, &mut String) -> fmt::Result,
    ) -> fmt::Result {
        match self.connection.as_mut() {
            Some(connection) => {
                call(connection, out)?;
                self.write_record(out)
            }
            None => out.write_str(CLOSED_LINE),
        }
    }

    fn write_record(&self, out: &mut String) -> fmt::Result {
        match &self.connection {
            Some(connection) => writeln!(out, "record {}", Record(connection)),
            None => writeln!(out, "record -"),
        }
    }

    fn write_timer(&self, out: &mut String) -> fmt::Result {
        writeln!(out, "timer-state {}", TimerFields(&self.timer))
    }
}

fn number<T>(result: &Result<T, Refusal>) -> u8 {
    match result {
        Ok(_) => 0,
        Err(refusal) => refusal.number(),
    }
}

fn write_read(octets: &[u8], out: &mut String) -> fmt::Result {
    let Reading { result, steps } = Segment::read(octets);
    write!(out, "read {}", number(&result))?;
    if let Ok(segment) = &result {
        write!(out, " {}", SegmentFields(segment))?;
    }
    let place_or_count = Where(result.map(|segment| segment.options.skipped));
    writeln!(out, " {} {}", place_or_count, steps)
}

fn write_arrive(arrived: Result<Judged, Refusal>, out: &mut String) -> fmt::Result {
    let (number, taken) = match arrived.map(|judged| judged.verdict) {
        Ok(Verdict::Take(taken)) => (0, taken),
        Ok(verdict) => (verdict.number(), Taken::default()),
        Err(refusal) => (refusal.number(), Taken::default()),
    };
    writeln!(
        out,
        "arrive {} {} {} {} {} {}",
        number,
        taken.part.offset,
        taken.part.length,
        u8::from(taken.part.fin),
        Ranges(taken.sack.iter()),
        Where(arrived.map(|judged| judged.skipped)),
    )
}

/// The field that every line about a segment has: how many unknown options were skipped, the place of the option at fault,
/// or `-` for a refusal that has none.
struct Where(Result<u8, Refusal>);

impl Display for Where {
    fn fmt(&self, f: &mut fmt::Formatter) -> fmt::Result {
        match self.0 {
            Ok(skipped) => skipped.fmt(f),
            Err(refusal) => OrDash(refusal.place().map(|place| place.0)).fmt(f),
        }
    }
}

/// Octets as hexadecimal digits run together, `-` where there are none.
pub struct Hex<'a>(pub &'a [u8]);

impl Display for Hex<'_> {
    fn fmt(&self, f: &mut fmt::Formatter) -> fmt::Result {
        if self.0.is_empty() {
            return f.write_str("-");
        }
        self.0
            .iter()
            .try_for_each(|octet| write!(f, "{:02x}", octet))
    }
}

/// A number, or `-` where it is absent.
struct OrDash<T>(Option<T>);

impl<T: Display> Display for OrDash<T> {
    fn fmt(&self, f: &mut fmt::Formatter) -> fmt::Result {
        match &self.0 {
            Some(value) => value.fmt(f),
            None => f.write_str("-"),
        }
    }
}

/// The number of ranges, then left and right of each.
struct Ranges<I>(I);

impl<I: Iterator<Item = Range> + Clone> Display for Ranges<I> {
    fn fmt(&self, f: &mut fmt::Formatter) -> fmt::Result {
        write!(f, "{}", self.0.clone().count())?;
        self.0
            .clone()
            .try_for_each(|range| write!(f, " {} {}", range.left.0, range.right.0))
    }
}

/// The fields of a segment that was read.
struct SegmentFields<'a>(&'a Segment<'a>);

impl Display for SegmentFields<'_> {
    fn fmt(&self, f: &mut fmt::Formatter) -> fmt::Result {
        let segment = self.0;
        let options = &segment.options;
        write!(
            f,
            "{} {} {} {} {} {} {} {} {} {} {} {} {} {} {}",
            segment.source,
            segment.destination,
            segment.seq.0,
            segment.ack.0,
            segment.flags.0,
            segment.window,
            segment.urgent,
            OrDash(options.mss),
            OrDash(options.scale),
            u8::from(options.sack_permitted),
            OrDash(options.timestamps.map(|stamps| stamps.value.0)),
            OrDash(options.timestamps.map(|stamps| stamps.echo.0)),
            Ranges(options.sack.iter()),
            segment.payload_offset,
            segment.payload.len(),
        )
    }
}

/// The fields of a record line.
struct Record<'a>(&'a Connection);

impl Display for Record<'_> {
    fn fmt(&self, f: &mut fmt::Formatter) -> fmt::Result {
        let connection = self.0;
        write!(
            f,
            "{} {} {} {} {} {} {} {} {} {} {} {} {} {} {} {} {} {} {}",
            connection.rcv_nxt.0,
            connection.rcv_wnd,
            connection.last_ack_sent.0,
            connection.rcv_shift,
            connection.snd_shift,
            connection.snd_una.0,
            connection.snd_nxt.0,
            connection.snd_wnd,
            connection.snd_wl1.0,
            connection.snd_wl2.0,
            u8::from(connection.timestamps),
            connection.ts_recent.0,
            connection.ts_recent_clock,
            connection.offset,
            u8::from(connection.sack),
            connection.mss,
            Ranges(connection.held.as_slice().iter().copied()),
            TimerFields(&connection.timer),
            connection.max_snd_wnd,
        )
    }
}

/// The four fields of a timer.
struct TimerFields<'a>(&'a Timer);

impl Display for TimerFields<'_> {
    fn fmt(&self, f: &mut fmt::Formatter) -> fmt::Result {
        let timer = self.0;
        write!(
            f,
            "{} {} {} {}",
            u8::from(timer.sampled),
            timer.smoothed,
            timer.variation,
            timer.rto,
        )
    }
}

#[cfg(test)]
mod tests {
    use super::*;
    use crate::cases::{data, opening, syn, CLOCK, NEXT, RECENT};
    use crate::connection::Opening;
    use crate::segment::ACK;
    use crate::serial::Stamp;
    use crate::timer::Sample;

    fn play_calls(calls: &[Call]) -> String {
        let mut script = Vec::new();
        for call in calls {
            call.encode(&mut script);
        }
        play(&script)
    }

    #[test]
    fn timer_lines() {
        let sample = |round_trip, expected| Call::Sample(Sample::new(round_trip, expected));
        let calls = [
            Call::Timer,
            sample(1_000, 16),
            sample(600_001, 1),
            sample(1_101, 17),
            Call::Expiry,
            sample(1_101, 16),
        ];
        let expected = "timer\ntimer-state 0 0 0 1000\n\
                        sample 0\ntimer-state 1 256000 128000 3004\n\
                        sample 14\ntimer-state 1 256000 128000 3004\n\
                        sample 14\ntimer-state 1 256000 128000 3004\n\
                        expiry\ntimer-state 1 256000 128000 6008\n\
                        sample 0\ntimer-state 1 256202 126404 2980\n";
        assert_eq!(play_calls(&calls), expected);
    }

    #[test]
    fn calls_without_a_record() {
        let calls = [
            Call::Sent { count: 0 },
            Call::Expire,
            Call::Distance { a: 0, b: 1 << 31 },
            Call::DistanceFromC { a: u32::MAX, b: 0 },
            Call::Refusal { segment: &[0; 19] },
            Call::Find {
                kinds: &[8],
                segment: &[],
            },
        ];
        let expected = "closed\nclosed\ndistance -2147483648\ndistance 1\nrefusal 1\nfind -\n";
        assert_eq!(play_calls(&calls), expected);
    }

    #[test]
    fn a_readable_segment() {
        let mut segment = [0; 21];
        segment[12] = 0x5f;
        segment[13] = 0x10;
        let line = play_calls(&[Call::Read { segment: &segment }]);
        assert_eq!(line, "read 0 0 0 0 0 16 0 0 - - 0 - - 0 20 1 0 0\n");
    }

    #[test]
    fn a_record_line_ends_in_the_largest_send_window() {
        let segment = &syn().window(50).build();
        let mut calls = vec![Call::Open {
            opening: opening(),
            segment,
        }];
        let segments = [60, 20].map(|window| data(NEXT, 0).window(window).build());
        calls.extend(segments.iter().map(|segment| Call::Arrive {
            clock: CLOCK,
            segment,
        }));
        let expected = "open 0 0\n\
                        record 5000 65535 5000 0 0 1001 1001 50 4999 1001 0 0 10000 0 0 536 0 0 0 0 1000 50\n\
                        arrive 0 0 0 0 0 0\n\
                        record 5000 65535 5000 0 0 1001 1001 60 5000 1001 0 0 10000 0 0 536 0 0 0 0 1000 60\n\
                        arrive 0 0 0 0 0 0\n\
                        record 5000 65535 5000 0 0 1001 1001 20 5000 1001 0 0 10000 0 0 536 0 0 0 0 1000 60\n";
        assert_eq!(play_calls(&calls), expected);
    }

    #[test]
    fn the_profile_opens_the_record_of_the_base_or_says_what_is_lacking() {
        let opening = Opening {
            timestamps: true,
            ..opening()
        };
        let offered = syn().timestamps(RECENT, Stamp(0)).options(&[99, 2]);
        let segments = [
            syn().options(&[99, 2]),
            offered.clone().scale(8),
            offered.clone().mss(535),
            offered.clone().options(&[99, 1]),
            offered.clone().flags(ACK),
            offered,
            syn(),
        ]
        .map(|segment| segment.build());
        let open = |segment| Call::OpenUnderProfile { opening, segment };
        let calls: Vec<Call> = segments.iter().map(|segment| open(segment)).collect();
        let record = "record 5000 65535 5000 0 0 1001 1001 8192 4999 1001 1 100 10000 0 0 536 0 0 0 0 1000 8192\n";
        let expected = [
            "profile 17 1 -\nrecord -\n",
            "profile 17 2 -\nrecord -\n",
            "profile 17 3 -\nrecord -\n",
            "profile 4 - 32\nrecord -\n",
            "profile 10 - -\nrecord -\n",
            "profile 0 - 1\n",
            record,
            "profile 17 1 -\n",
            record,
        ];
        assert_eq!(play_calls(&calls), expected.concat());
    }

    /// The lines, but for the record's, about segments with these options: read, opened from, arriving.
    fn lines_about(options: &[u8]) -> Vec<String> {
        let (opening, clock) = (opening(), CLOCK);
        let segment = &data(NEXT, 0).options(options).build();
        let lines = play_calls(&[
            Call::Open {
                opening,
                segment: &syn().build(),
            },
            Call::Read { segment },
            Call::Open {
                opening,
                segment: &syn().options(options).build(),
            },
            Call::Arrive { clock, segment },
        ]);
        let about = lines.lines().filter(|line| !line.starts_with("record"));
        about.skip(1).map(str::to_owned).collect()
    }

    #[test]
    fn a_count_ends_the_lines_and_steps_that_of_read() {
        let lines = lines_about(&[99, 2, 1, 98, 3, 0]);
        let read = "read 0 12345 443 5000 1001 16 8192 0 - - 0 - - 0 28 0 2 4";
        assert_eq!(lines, [read, "open 0 2", "arrive 0 0 0 0 0 2"]);
    }

    #[test]
    fn a_place_ends_the_lines_and_steps_that_of_read() {
        let lines = lines_about(&[99, 2, 99, 1]);
        assert_eq!(lines, ["read 4 22 2", "open 4 22", "arrive 4 0 0 0 0 22"]);
        let lines = lines_about(&[1, 4, 3, 0]);
        assert_eq!(lines, ["read 5 21 2", "open 5 21", "arrive 5 0 0 0 0 21"]);
        let lines = lines_about(&[4, 2, 99, 2, 4, 2]);
        assert_eq!(lines, ["read 6 24 3", "open 6 24", "arrive 6 0 0 0 0 24"]);
    }

    #[test]
    fn other_refusals_have_a_dash() {
        let opening = opening();
        let segment = &data(NEXT, 0).options(&[99, 2]).build();
        let lines = play_calls(&[
            Call::Read { segment: &[] },
            Call::Open { opening, segment },
            Call::Open {
                opening,
                segment: &syn().build(),
            },
            Call::Arrive {
                clock: CLOCK - 1,
                segment,
            },
        ]);
        assert!(lines.starts_with("read 1 - 0\nopen 10 -\nrecord -\nopen 0 0\n"));
        assert!(lines.contains("\narrive 8 0 0 0 0 -\n"));
    }

    #[test]
    fn bad_ends_the_lines() {
        assert_eq!(
            play(&[9, 0, 0, 0, 0, 99, 0, 0, 0, 0, 9, 0, 0, 0, 0]),
            "closed\nbad\n"
        );
        assert_eq!(play(&[9, 0]), "bad\n");
        assert_eq!(play(&[]), "");
    }
}
