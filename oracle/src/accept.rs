//! Which states a tick takes (docs/SCOPE.md, "States we accept"), by their kind.

use crate::chip::{Refusal, NOT_ACCEPTED, UNKNOWN_KIND};
use crate::kind::known;
use crate::scene::State;

/// The highest clock and forced clock: 2 to the power of 62.
pub const CLOCK_LIMIT: i64 = 4_611_686_018_427_387_904;

pub fn accepted(s: &State) -> bool {
    known(s.kind).is_some_and(|column| (1..=column.last_cycle).contains(&s.cycle) && s.raster <= column.last_line)
        && s.compare <= 511
        && (-1..=3).contains(&s.aec_counter)
        && s.vc <= 1023
        && s.vc_base <= 1023
        && s.rc <= 7
        && s.vmli <= vmli_limit(s.cycle)
        && clock_in_range(s.clock)
        && clock_in_range(s.forced_clock)
        // A line has lost no more cycles than it had (02 (xi)).
        && u16::from(s.lost) <= s.cycle
        && s.sprites.iter().enumerate().all(|(k, sprite)| sprite.number as usize == k && sprite.mc <= 63 && sprite.base <= 63)
}

/// What a tick and a late byte ask of a state: a known kind, and then all the rest.
pub fn takes(s: &State) -> Result<(), Refusal> {
    if known(s.kind).is_none() {
        Err(UNKNOWN_KIND)
    } else if !accepted(s) {
        Err(NOT_ACCEPTED)
    } else {
        Ok(())
    }
}

/// An ordinary bad line clears VMLI in cycle 14 and moves it on in 16 to 55, to 40.
pub fn vmli_limit(cycle: u16) -> u8 {
    match cycle {
        14..=55 => cycle.saturating_sub(15) as u8,
        _ => 40,
    }
}

fn clock_in_range(clock: i64) -> bool {
    (0..=CLOCK_LIMIT).contains(&clock)
}
