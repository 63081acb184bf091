//! Stand-in for the original's `pla`: where the chip sees the character ROM.

use crate::memory::constants::MapRegion;
use crate::memory::Phi1Mode;

/// docs/SCOPE.md: in banks 0 and 2, addresses 0x1000 to 0x1FFF read ROM; all else reads RAM.
pub fn map_vic_addr(address: u16, bank: usize, _mode: Phi1Mode) -> MapRegion {
    if matches!(bank, 0 | 2) && (0x1000..=0x1FFF).contains(&address) {
        MapRegion::Char
    } else {
        MapRegion::Ram
    }
}
