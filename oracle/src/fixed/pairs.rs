//! Send-twice pairs: every short sequence of frames, and what else closes a pair.

use super::gears::led;
use crate::call::Call;
use crate::calls::*;
use crate::kinds;
use crate::list::Recorder;

pub fn record(r: &mut Recorder) {
    r.call(led().call());
    let (one, other) = (0x0B20, 0x0B2A);
    let steps =
        [hear(one, true), hear(one, false), hear(other, true), hear(other, false), plain(kinds::HEAR_ELSEWHERE)];
    for first in steps {
        for second in steps {
            for third in steps {
                r.calls([first, second, third, holds(one), holds(other), plain(kinds::HEAR_ELSEWHERE)]);
            }
        }
    }
    frames(r);
    between(r);
}

/// Frame numbers at the ends, and neighbours that differ in one byte.
fn frames(r: &mut Recorder) {
    let frames = [0x0000, 0x0001, 0x0100, 0x00FF, 0xFF00, 0xFFFE, 0xFFFF];
    for open in frames {
        for heard in frames {
            r.calls([hear(open, true), holds(heard), hear(heard, false), holds(open)]);
        }
    }
}

/// A pair stays open over other calls; a power cycle and a reset close it.
fn between(r: &mut Recorder) {
    let frame = 0x0B2A;
    let calls: [Call; 8] = [
        arc_power(10),
        write(42, 200),
        query(144),
        write(32, 0),
        plain(kinds::POWER_CYCLE),
        plain(kinds::ACTIVATE),
        memory_write(1, 3, 3),
        write(255, 0),
    ];
    for call in calls {
        r.calls([hear(frame, true), call, holds(frame), hear(frame, true), holds(frame)]);
    }
}
