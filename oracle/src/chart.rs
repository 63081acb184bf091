//! The program `chart` of docs/SCOPE.md, on any chip.

use crate::chip::Chip;
use crate::late::Met;
use crate::memory::Memory;
use crate::play::{play, Event};
use std::io::{self, Write};

/// Charts a run file.
pub fn chart<C: Chip>(bytes: &[u8], output: &mut impl Write, make: impl FnOnce(Memory) -> C) -> io::Result<Met> {
    play(bytes, make, |event| match event {
        Event::Steps(steps) => writeln!(output, "steps {steps}"),
        Event::Tick(chip) => line(chip, output),
        Event::Refused(refusal, done) => writeln!(output, "refused {refusal} {done}"),
    })
}

/// What a tick prints: BA and AEC are 0 for low.
fn line(chip: &impl Chip, output: &mut impl Write) -> io::Result<()> {
    let s = chip.state();
    writeln!(
        output,
        "{} {} {} {} {} {} {} {}",
        s.cycle,
        s.raster,
        u8::from(!s.ba_low),
        u8::from(!s.aec_low),
        chip.sprites_with_dma(),
        s.rc,
        s.vc,
        s.irq_flags & 0x0F
    )
}
