//! Type walks: whole ones over lists of every length, placed ones, and what ends a walk.

use super::gears::*;
use crate::call::Call;
use crate::calls::*;
use crate::kinds;
use crate::list::Recorder;
use crate::profile::Profile;

const CODES: [u8; 16] = [6, 8, 1, 2, 3, 4, 5, 9, 10, 50, 254, 255, 0, 6, 8, 52];

pub fn record(r: &mut Recorder) {
    for count in 0..=13 {
        r.call(Profile::of(&CODES[..count]).call());
        whole_walk(r, count);
        r.call(plain(kinds::HEAR_ELSEWHERE));
    }
    r.call(led().call());
    for count in [0, 1, 2, 13, 14, 15, 16] {
        r.call(place_types(&CODES[..count]));
        whole_walk(r, count);
        (0..=16).for_each(|cursor| placed_walk(r, cursor));
    }
    r.call(everything().call());
    for call in every_call() {
        r.calls([place_walk(255), query(153), query(167), call, query(167)]);
    }
}

/// Query 153 and then 167 until well past the end.
fn whole_walk(r: &mut Recorder, count: usize) {
    r.calls([query(167), query(153)]);
    r.calls((0..count + 3).map(|_| query(167)));
}

/// A walk at any place, also beyond its list; 153 begins it anew or ends it.
fn placed_walk(r: &mut Recorder, cursor: u8) {
    r.calls([place_walk(cursor), query(167), query(167), place_walk(cursor), query(153), query(167)]);
}

/// Each call once: bytes in and outside the tables, and the kinds that keep the types.
fn every_call() -> Vec<Call> {
    let mut calls: Vec<Call> = (0..=255).map(|byte| write(byte, 100)).filter(|call| call.byte(1) != 32).collect();
    calls.extend((0..=255).filter(|byte| *byte != 167).map(query));
    calls.extend([arc_power(0), arc_power(100), arc_power(255)]);
    let kinds = kinds::TC_STEP..=kinds::IS_DT8;
    calls.extend(kinds.clone().map(plain));
    calls.extend(kinds.map(|kind| Call::new(kind, &[1, 1, 1])));
    calls.extend([write(32, 0), Profile { channels: 7, ..led() }.call()]);
    calls
}
