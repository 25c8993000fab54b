//! An independent second program for the receive side of TCP by RFC 7323: it plays scripts of calls,
//! makes them, and compares another program's answers with its own.

#![forbid(unsafe_code)]

pub mod acknowledgment;
pub mod bench;
pub mod builder;
pub mod cases;
pub mod compare;
pub mod connection;
pub mod count;
pub mod describe;
pub mod exact;
pub mod generate;
pub mod natural;
pub mod octets;
pub mod options;
pub mod play;
pub mod profile;
pub mod random;
pub mod ranges;
pub mod refusal;
pub mod script;
pub mod segment;
pub mod serial;
pub mod stored;
pub mod timer;
pub mod timer_list;
pub mod timer_run;
pub mod verdict;
