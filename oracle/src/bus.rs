//! The program `bus` of docs/FORMATS.md, on any chip: what each tick of a run file reads (02 (viii)), and the cycles lost (02 (xi)).

use crate::chip::Chip;
use crate::late::Met;
use crate::memory::Memory;
use crate::play::{play, Event};
use std::io::{self, Write};

/// The reads of a run file's ticks.
pub fn bus<C: Chip>(bytes: &[u8], output: &mut impl Write, make: impl FnOnce(Memory) -> C) -> io::Result<Met> {
    play(bytes, make, |event| match event {
        Event::Steps(steps) => writeln!(output, "steps {steps}"),
        Event::Tick(chip) => line(chip, output),
        Event::Refused(refusal, done) => writeln!(output, "refused {refusal} {done}"),
    })
}

/// Where the beam is after the tick, how many cycles its line has lost, and each read with its reason's word.
fn line(chip: &impl Chip, output: &mut impl Write) -> io::Result<()> {
    let s = chip.state();
    write!(output, "{} {} {}", s.cycle, s.raster, s.lost)?;
    for (reason, address) in chip.reads().iter() {
        write!(output, " {} {address:04X}", reason.word())?;
    }
    writeln!(output)
}
