//! Calls before any opening succeeded.

use crate::cases::{data, opening, syn, NEXT};
use crate::connection::Opening;
use crate::script::Call;

use super::calls::CallList;
use super::profile;

pub fn add(calls: &mut CallList) {
    on_no_record(calls);
    let refused = Opening {
        shift: Some(15),
        ..opening()
    };
    calls.open(&refused, &syn());
    calls.open_under_profile(&refused, &syn());
    profile::lacking(calls);
    on_no_record(calls);
}

/// Each call that needs a record.
fn on_no_record(calls: &mut CallList) {
    calls.arrive(&data(NEXT, 1));
    calls.sent(1);
    calls.window(65_535);
    calls.acknowledge(20);
    calls.add(&Call::Expire);
}
