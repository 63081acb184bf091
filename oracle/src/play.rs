//! A run file at work, on any chip: what `chart` and `dump` are told.
//!
//! docs/DECISIONS.md, 33, settles the readings of the run file.

use crate::chip::{Chip, Refusal};
use crate::late::Met;
use crate::memory::Memory;
use std::io;

const ENDS_EARLY: Refusal = 7;
const NOT_ALLOWED: Refusal = 8;
const BYTES_LEFT: Refusal = 9;
const RETIRED_KIND: Refusal = 10;

/// What there is to tell of a run, in its order: the number of the steps, each tick, a refusal and the steps done before it.
pub enum Event<'a, C> {
    Steps(u16),
    Tick(&'a C),
    Refused(Refusal, u16),
}

/// Plays a run file on the chip that is made, at power-up, with the file's memory, and tells of it.
pub fn play<C: Chip>(bytes: &[u8], make: impl FnOnce(Memory) -> C, mut tell: impl FnMut(Event<C>) -> io::Result<()>) -> io::Result<Met> {
    let mut met = Met::default();
    let mut file = Cursor { bytes, at: 0 };
    let (memory, steps) = match open(&mut file) {
        Ok(opened) => opened,
        Err(refusal) => {
            tell(Event::Refused(refusal, 0))?;
            return Ok(met);
        }
    };
    let mut chip = make(memory);
    tell(Event::Steps(steps))?;
    for done in 0..steps {
        match step(&mut file, &mut chip) {
            Ok(true) => {
                met.tick(chip.late());
                tell(Event::Tick(&chip))?;
            }
            Ok(false) => {}
            Err(refusal) => {
                tell(Event::Refused(refusal, done))?;
                met.records = chip.records();
                return Ok(met);
            }
        }
    }
    if file.at < bytes.len() {
        tell(Event::Refused(BYTES_LEFT, steps))?;
    }
    met.records = chip.records();
    Ok(met)
}

/// A run file and a place in it.
struct Cursor<'a> {
    bytes: &'a [u8],
    at: usize,
}

impl Cursor<'_> {
    /// A whole record, or 7 before any of it is judged.
    fn take<const N: usize>(&mut self) -> Result<[u8; N], Refusal> {
        let record = self.bytes[self.at..].first_chunk().ok_or(ENDS_EARLY)?;
        self.at += N;
        Ok(*record)
    }

    /// A section of memory changes.
    fn changes(&mut self, memory: &mut [u8]) -> Result<(), Refusal> {
        let count = u16::from_le_bytes(self.take()?);
        if usize::from(count) > memory.len() {
            return Err(NOT_ALLOWED);
        }
        for _ in 0..count {
            let [low, high, value] = self.take()?;
            let place = usize::from(u16::from_le_bytes([low, high]));
            *memory.get_mut(place).ok_or(NOT_ALLOWED)? = value;
        }
        Ok(())
    }
}

/// All that comes before the steps.
fn open(file: &mut Cursor) -> Result<(Memory, u16), Refusal> {
    let mut memory = Memory::new();
    file.changes(&mut memory.ram[..])?;
    file.changes(&mut memory.rom[..])?;
    file.changes(&mut memory.colour[..])?;
    let steps = u16::from_le_bytes(file.take()?);
    Ok((memory, steps))
}

/// One step; true for a tick.
fn step(file: &mut Cursor, chip: &mut impl Chip) -> Result<bool, Refusal> {
    let record: [u8; 5] = file.take()?;
    // Each pattern says which bytes are unused and so must be 0.
    match record {
        [0, 0, 0, 0, 0] => {
            chip.tick()?;
            return Ok(true);
        }
        [1, address, value, 0, 0] => chip.write(address.into(), value),
        [2, value, 0, 0, 0] => chip.write_y_expand(value),
        // Here a compare line above 511 is a field not allowed.
        [3, ctrl1, ctrl2, low, high @ 0..=1] => chip.place_controls(ctrl1, ctrl2, u16::from_le_bytes([low, high]))?,
        [4, value, 0, 0, 0] => chip.late_byte(value)?,
        [5, 0, 0, 0, 0] => chip.border_compares(),
        // No step any more, whatever its fields are (02 (vii)).
        [6, ..] => return Err(RETIRED_KIND),
        [7, bank @ 0..=3, 0, 0, 0] => chip.see(bank),
        [8, value, 0, 0, 0] => chip.write_control_1(value),
        [9, value, 0, 0, 0] => chip.write_control_2(value),
        _ => return Err(NOT_ALLOWED),
    }
    Ok(false)
}
