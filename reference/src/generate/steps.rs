//! Random options of many steps: NOPs and the shortest options, kind 0 at any place, and faults behind them.

use crate::builder::MAX_OPTIONS;
use crate::options::{END, NOP};
use crate::random::Random;

use super::unknown::{unknown_kind, FAULTS, REPEATED};

/// Options up to the header's end; a last one may be cut there.
pub fn many_steps(random: &mut Random) -> Vec<u8> {
    let mut options = short_steps(random);
    match random.below(8) {
        0 | 1 => overwrite(random, &mut options, &[END]),
        2 | 3 => {
            let fault = random.pick(&FAULTS);
            overwrite(random, &mut options, &fault);
        }
        4 => {
            let option = random.pick(&REPEATED);
            overwrite(random, &mut options, &option);
            overwrite(random, &mut options, &option);
        }
        _ => {}
    }
    options
}

/// NOPs and options of two octets, either of them alone at times.
fn short_steps(random: &mut Random) -> Vec<u8> {
    let any_share = random.below(101);
    let nops = random.pick(&[0, any_share, any_share, 100]);
    let any_length = 4 * (1 + random.index(MAX_OPTIONS / 4));
    let length = random.pick(&[MAX_OPTIONS, any_length]);
    let mut options = Vec::new();
    while options.len() < length {
        if random.percent(nops) {
            options.push(NOP);
        } else {
            options.extend([unknown_kind(random), 2]);
        }
    }
    options.truncate(length);
    options
}

/// Puts octets over others at any place, as far as there is room.
fn overwrite(random: &mut Random, options: &mut [u8], octets: &[u8]) {
    let at = random.index(options.len());
    for (place, &octet) in options[at..].iter_mut().zip(octets) {
        *place = octet;
    }
}
