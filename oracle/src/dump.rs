//! The program `dump` of docs/FORMATS.md, on any chip. The original has no dump: its ticks are compared, the text is ours.

use crate::chip::Chip;
use crate::late::Met;
use crate::memory::Memory;
use crate::play::{play, Event};
use std::io::{self, Write};

/// Width and name of each signal, in the order of a record. The identifiers are A to H.
const SIGNALS: [(u32, &str); 8] = [(7, "cycle"), (9, "raster"), (1, "ba"), (1, "aec"), (8, "dma"), (3, "rc"), (10, "vc"), (1, "irq")];

/// Dumps a run file.
pub fn dump<C: Chip>(bytes: &[u8], output: &mut impl Write, make: impl FnOnce(Memory) -> C) -> io::Result<Met> {
    declare(output)?;
    let (mut time, mut last) = (0, None);
    play(bytes, make, |event| match event {
        Event::Steps(_) => Ok(()),
        Event::Tick(chip) => {
            let now = record(chip);
            tick(time, last, now, output)?;
            time += 1;
            last = Some(now);
            Ok(())
        }
        Event::Refused(refusal, done) => writeln!(output, "$comment refused {refusal} {done} $end"),
    })
}

fn declare(output: &mut impl Write) -> io::Result<()> {
    writeln!(output, "$version Nickelplait $end\n$timescale 1 us $end\n$scope module vic $end")?;
    for ((width, name), id) in SIGNALS.iter().zip('A'..) {
        writeln!(output, "$var wire {width} {id} {name} $end")?;
    }
    writeln!(output, "$upscope $end\n$enddefinitions $end")
}

/// BA, AEC and the interrupt as on the pins: low is 0, and the chip asks with a low.
fn record(chip: &impl Chip) -> [u16; 8] {
    let s = chip.state();
    [s.cycle, s.raster, (!s.ba_low).into(), (!s.aec_low).into(), s.dma.into(), s.rc.into(), s.vc, (!s.irq_line).into()]
}

/// All values of a first tick, and of a later one those that changed.
fn tick(time: u64, last: Option<[u16; 8]>, now: [u16; 8], output: &mut impl Write) -> io::Result<()> {
    writeln!(output, "#{time}")?;
    if last.is_none() {
        writeln!(output, "$dumpvars")?;
    }
    for (k, (value, id)) in now.into_iter().zip('A'..).enumerate() {
        if last.is_some_and(|last| last[k] == value) {
            continue;
        }
        match SIGNALS[k].0 {
            1 => writeln!(output, "{value}{id}")?,
            _ => writeln!(output, "b{value:b} {id}")?,
        }
    }
    if last.is_none() {
        writeln!(output, "$end")?;
    }
    Ok(())
}
