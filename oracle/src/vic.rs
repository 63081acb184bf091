//! The original's `vic`: its files by path, unchanged, with our stand-ins and glue beside them.
//!
//! The glue has to be in this module, since the pending place is visible only here.

// The originals hold more than the judge uses.
#![allow(dead_code, unused_imports)]

include!(concat!(env!("OUT_DIR"), "/vic_mods.rs"));

pub mod glue;
mod standins;

// The names under which the originals look for what is not in their text.
use standins::{foreground, foreground_transition, graphics_mask, graphics_pixels, telemetry};
