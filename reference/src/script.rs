//! Scripts of calls: each call decoded from octets and encoded to them.

use crate::connection::Opening;
use crate::octets::{u16_at, u32_at, u64_at};
use crate::serial::Seq;
use crate::timer::Sample;

/// The longest body that a call may have.
pub const MAX_BODY: usize = 65_664;

/// The octets of a call before its body: its name and the length of the body.
pub const HEAD_LENGTH: usize = 5;

const OFFERS_TIMESTAMPS: u8 = 1;
const OFFERS_SACK: u8 = 2;
const OFFERS_SCALE: u8 = 4;

const READ: u8 = 1;
const FIND: u8 = 2;
const DISTANCE: u8 = 3;
const OPEN: u8 = 4;
const ARRIVE: u8 = 5;
const SENT: u8 = 6;
const WINDOW: u8 = 7;
const ACKNOWLEDGE: u8 = 8;
const EXPIRE: u8 = 9;
const TIMER: u8 = 10;
const SAMPLE: u8 = 11;
const EXPIRY: u8 = 12;
const REFUSAL: u8 = 13;
const DISTANCE_FROM_C: u8 = 14;
const MILLISECONDS: u8 = 15;
const OPEN_UNDER_PROFILE: u8 = 19;

/// One call of a script.
#[derive(Clone, Copy, Debug, PartialEq, Eq)]
pub enum Call<'a> {
    Read {
        segment: &'a [u8],
    },
    Find {
        kinds: &'a [u8],
        segment: &'a [u8],
    },
    Distance {
        a: u32,
        b: u32,
    },
    Open {
        opening: Opening,
        segment: &'a [u8],
    },
    Arrive {
        clock: u64,
        segment: &'a [u8],
    },
    Sent {
        count: u32,
    },
    Window {
        window: u32,
    },
    Acknowledge {
        source: u16,
        destination: u16,
        clock: u64,
        buffer: &'a [u8],
    },
    Expire,
    Timer,
    Sample(Sample),
    Expiry,
    Refusal {
        segment: &'a [u8],
    },
    DistanceFromC {
        a: u32,
        b: u32,
    },
    Milliseconds {
        smoothed: u64,
        variation: u64,
    },
    OpenUnderProfile {
        opening: Opening,
        segment: &'a [u8],
    },
}

/// A call that cannot be decoded: unknown, too long, or short of octets.
#[derive(Clone, Copy, Debug, PartialEq, Eq)]
pub struct Bad;

impl<'a> Call<'a> {
    fn decode(name: u8, body: &'a [u8]) -> Result<Call<'a>, Bad> {
        let mut body = Body { rest: body };
        Ok(match name {
            READ => Call::Read { segment: body.rest },
            FIND => {
                let count = usize::from(body.u8()?);
                Call::Find {
                    kinds: body.take(count)?,
                    segment: body.rest,
                }
            }
            DISTANCE => Call::Distance {
                a: body.u32()?,
                b: body.u32()?,
            },
            OPEN => Call::Open {
                opening: body.opening()?,
                segment: body.rest,
            },
            ARRIVE => Call::Arrive {
                clock: body.u64()?,
                segment: body.rest,
            },
            SENT => Call::Sent { count: body.u32()? },
            WINDOW => Call::Window {
                window: body.u32()?,
            },
            ACKNOWLEDGE => Call::Acknowledge {
                source: body.u16()?,
                destination: body.u16()?,
                clock: body.u64()?,
                buffer: body.rest,
            },
            EXPIRE => Call::Expire,
            TIMER => Call::Timer,
            SAMPLE => Call::Sample(Sample {
                round_trip: body.u32()?,
                expected: body.u32()?,
            }),
            EXPIRY => Call::Expiry,
            REFUSAL => Call::Refusal { segment: body.rest },
            DISTANCE_FROM_C => Call::DistanceFromC {
                a: body.u32()?,
                b: body.u32()?,
            },
            MILLISECONDS => Call::Milliseconds {
                smoothed: body.u64()?,
                variation: body.u64()?,
            },
            OPEN_UNDER_PROFILE => Call::OpenUnderProfile {
                opening: body.opening()?,
                segment: body.rest,
            },
            _ => return Err(Bad),
        })
    }

    /// Appends the call to a script.
    pub fn encode(&self, script: &mut Vec<u8>) {
        let start = script.len();
        script.push(self.name());
        script.extend_from_slice(&[0; HEAD_LENGTH - 1]);
        self.encode_body(script);
        let length = (script.len() - start - HEAD_LENGTH) as u32;
        script[start + 1..start + HEAD_LENGTH].copy_from_slice(&length.to_be_bytes());
    }

    fn name(&self) -> u8 {
        match self {
            Call::Read { .. } => READ,
            Call::Find { .. } => FIND,
            Call::Distance { .. } => DISTANCE,
            Call::Open { .. } => OPEN,
            Call::Arrive { .. } => ARRIVE,
            Call::Sent { .. } => SENT,
            Call::Window { .. } => WINDOW,
            Call::Acknowledge { .. } => ACKNOWLEDGE,
            Call::Expire => EXPIRE,
            Call::Timer => TIMER,
            Call::Sample(_) => SAMPLE,
            Call::Expiry => EXPIRY,
            Call::Refusal { .. } => REFUSAL,
            Call::DistanceFromC { .. } => DISTANCE_FROM_C,
            Call::Milliseconds { .. } => MILLISECONDS,
            Call::OpenUnderProfile { .. } => OPEN_UNDER_PROFILE,
        }
    }

    fn encode_body(&self, out: &mut Vec<u8>) {
        match *self {
            Call::Read { segment } | Call::Refusal { segment } => out.extend_from_slice(segment),
            Call::Find { kinds, segment } => {
                out.push(kinds.len() as u8);
                out.extend_from_slice(kinds);
                out.extend_from_slice(segment);
            }
            Call::Distance { a, b } | Call::DistanceFromC { a, b } => {
                out.extend_from_slice(&a.to_be_bytes());
                out.extend_from_slice(&b.to_be_bytes());
            }
            Call::Open { opening, segment } | Call::OpenUnderProfile { opening, segment } => {
                encode_opening(&opening, out);
                out.extend_from_slice(segment);
            }
            Call::Arrive { clock, segment } => {
                out.extend_from_slice(&clock.to_be_bytes());
                out.extend_from_slice(segment);
            }
            Call::Sent { count: number } | Call::Window { window: number } => {
                out.extend_from_slice(&number.to_be_bytes());
            }
            Call::Sample(sample) => {
                out.extend_from_slice(&sample.round_trip.to_be_bytes());
                out.extend_from_slice(&sample.expected.to_be_bytes());
            }
            Call::Acknowledge {
                source,
                destination,
                clock,
                buffer,
            } => {
                out.extend_from_slice(&source.to_be_bytes());
                out.extend_from_slice(&destination.to_be_bytes());
                out.extend_from_slice(&clock.to_be_bytes());
                out.extend_from_slice(buffer);
            }
            Call::Expire | Call::Timer | Call::Expiry => {}
            Call::Milliseconds {
                smoothed,
                variation,
            } => {
                out.extend_from_slice(&smoothed.to_be_bytes());
                out.extend_from_slice(&variation.to_be_bytes());
            }
        }
    }
}

fn encode_opening(opening: &Opening, out: &mut Vec<u8>) {
    let mut offers = 0;
    if opening.timestamps {
        offers |= OFFERS_TIMESTAMPS;
    }
    if opening.sack {
        offers |= OFFERS_SACK;
    }
    if opening.shift.is_some() {
        offers |= OFFERS_SCALE;
    }
    out.extend_from_slice(&opening.iss.0.to_be_bytes());
    out.push(opening.shift.unwrap_or(0));
    out.push(offers);
    out.extend_from_slice(&opening.window.to_be_bytes());
    out.extend_from_slice(&opening.offset.to_be_bytes());
    out.extend_from_slice(&opening.clock.to_be_bytes());
}

/// The octets of a body that are not decoded yet.
struct Body<'a> {
    rest: &'a [u8],
}

impl<'a> Body<'a> {
    fn take(&mut self, count: usize) -> Result<&'a [u8], Bad> {
        if count > self.rest.len() {
            return Err(Bad);
        }
        let (taken, rest) = self.rest.split_at(count);
        self.rest = rest;
        Ok(taken)
    }

    fn u8(&mut self) -> Result<u8, Bad> {
        Ok(self.take(1)?[0])
    }

    fn u16(&mut self) -> Result<u16, Bad> {
        Ok(u16_at(self.take(2)?, 0))
    }

    fn u32(&mut self) -> Result<u32, Bad> {
        Ok(u32_at(self.take(4)?, 0))
    }

    fn u64(&mut self) -> Result<u64, Bad> {
        Ok(u64_at(self.take(8)?, 0))
    }

    fn opening(&mut self) -> Result<Opening, Bad> {
        let iss = Seq(self.u32()?);
        let shift = self.u8()?;
        let offers = self.u8()?;
        Ok(Opening {
            iss,
            // Without the offer of scaling the shift octet says nothing.
            shift: (offers & OFFERS_SCALE != 0).then_some(shift),
            timestamps: offers & OFFERS_TIMESTAMPS != 0,
            sack: offers & OFFERS_SACK != 0,
            window: self.u32()?,
            offset: self.u32()?,
            clock: self.u64()?,
        })
    }
}

/// The calls of a script in order. A bad call is the last.
pub struct Calls<'a> {
    rest: &'a [u8],
}

impl<'a> Calls<'a> {
    pub fn new(script: &'a [u8]) -> Calls<'a> {
        Calls { rest: script }
    }

    /// The octets behind the calls given so far.
    pub fn rest(&self) -> &'a [u8] {
        self.rest
    }

    fn decode_next(&mut self) -> Result<Call<'a>, Bad> {
        let mut script = Body { rest: self.rest };
        let head = script.take(HEAD_LENGTH)?;
        let length = u32_at(head, 1);
        if length > MAX_BODY as u32 {
            return Err(Bad);
        }
        let call = Call::decode(head[0], script.take(length as usize)?)?;
        self.rest = script.rest;
        Ok(call)
    }
}

impl<'a> Iterator for Calls<'a> {
    type Item = Result<Call<'a>, Bad>;

    fn next(&mut self) -> Option<Self::Item> {
        if self.rest.is_empty() {
            return None;
        }
        let call = self.decode_next();
        if call.is_err() {
            self.rest = &[];
        }
        Some(call)
    }
}

#[cfg(test)]
mod tests {
    use super::*;

    const OPENING: Opening = Opening {
        iss: Seq(0x0102_0304),
        shift: Some(9),
        timestamps: true,
        sack: false,
        window: 0x0506_0708,
        offset: 7,
        clock: 0x1112_1314_1516_1718,
    };

    fn every_call() -> Vec<Call<'static>> {
        vec![
            Call::Read { segment: b"abc" },
            Call::Find {
                kinds: b"kk",
                segment: b"abc",
            },
            Call::Distance { a: 1, b: 2 },
            Call::Open {
                opening: OPENING,
                segment: b"syn",
            },
            Call::Arrive {
                clock: 1 << 40,
                segment: b"abc",
            },
            Call::Sent { count: 5 },
            Call::Window { window: 6 },
            Call::Acknowledge {
                source: 1,
                destination: 2,
                clock: u64::MAX,
                buffer: b"buffer",
            },
            Call::Expire,
            Call::Timer,
            Call::Sample(Sample::new(600_000, u32::MAX)),
            Call::Expiry,
            Call::Refusal { segment: b"" },
            Call::DistanceFromC { a: u32::MAX, b: 0 },
            Call::Milliseconds {
                smoothed: u64::MAX,
                variation: 1,
            },
            Call::OpenUnderProfile {
                opening: OPENING,
                segment: b"syn",
            },
        ]
    }

    #[test]
    fn what_is_encoded_is_decoded() {
        let mut script = Vec::new();
        for call in every_call() {
            call.encode(&mut script);
        }
        let decoded: Result<Vec<Call>, Bad> = Calls::new(&script).collect();
        assert_eq!(decoded, Ok(every_call()));
    }

    #[test]
    fn a_script_cut_inside_a_call_is_bad() {
        let mut script = Vec::new();
        Call::Sent { count: 5 }.encode(&mut script);
        for length in 1..script.len() {
            let calls: Vec<_> = Calls::new(&script[..length]).collect();
            assert_eq!(calls, [Err(Bad)]);
        }
        assert_eq!(Calls::new(&[]).count(), 0);
    }

    #[test]
    fn further_octets_of_a_fixed_body_are_not_looked_at() {
        let calls: Vec<_> = Calls::new(&[6, 0, 0, 0, 5, 0, 0, 0, 9, 77]).collect();
        assert_eq!(calls, [Ok(Call::Sent { count: 9 })]);
    }

    #[test]
    fn bad_calls() {
        let short = [6, 0, 0, 0, 3, 0, 0, 0];
        let no_n = [11, 0, 0, 0, 4, 0, 0, 0, 9];
        let short_n = [11, 0, 0, 0, 7, 0, 0, 0, 9, 0, 0, 0];
        let unknown = [16, 0, 0, 0, 0];
        let few_kinds = [2, 0, 0, 0, 2, 2, 8];
        let no_count = [2, 0, 0, 0, 0];
        let mut too_long = vec![1, 0, 1, 0, 0x81];
        too_long.resize(HEAD_LENGTH + MAX_BODY + 1, 0);
        let scripts: [&[u8]; 7] = [
            &short, &no_n, &short_n, &unknown, &few_kinds, &no_count, &too_long,
        ];
        for script in scripts {
            assert_eq!(Calls::new(script).next(), Some(Err(Bad)));
        }
        too_long[4] = 0x80;
        too_long.pop();
        assert!(matches!(Calls::new(&too_long).next(), Some(Ok(_))));
    }

    #[test]
    fn both_openings_need_all_their_fields() {
        for name in [OPEN, OPEN_UNDER_PROFILE] {
            let body = [0; 22];
            for length in 0..body.len() {
                assert_eq!(Call::decode(name, &body[..length]), Err(Bad));
            }
            assert!(Call::decode(name, &body).is_ok());
        }
    }

    #[test]
    fn a_shift_without_its_bit_is_no_offer_and_other_bits_are_not_looked_at() {
        let mut body = [0; 22];
        body[4] = 200;
        for (offers, shift) in [(0xf9, None), (0xfd, Some(200)), (1, None), (5, Some(200))] {
            body[5] = offers;
            let opening = Opening {
                iss: Seq(0),
                shift,
                timestamps: true,
                sack: false,
                window: 0,
                offset: 0,
                clock: 0,
            };
            let segment: &[u8] = &[];
            let call = Call::OpenUnderProfile { opening, segment };
            assert_eq!(Call::decode(OPEN_UNDER_PROFILE, &body), Ok(call));
        }
    }
}
