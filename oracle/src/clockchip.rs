//! The original's `clockchip`, as far as the chip needs it.

include!(concat!(env!("OUT_DIR"), "/clockchip_mods.rs"));
