//! Makes run files (docs/SCOPE.md, "Run file"). A file has no place for the kind; its writes go by the beam of the kind it is made for.

use crate::kind::Column;
use crate::memory::{COLOUR, RAM, ROM};
use crate::rng::Rng;
use std::path::Path;
use std::{fs, io};

/// A run file in its parts.
struct Run {
    column: Column,
    ram: Vec<(u16, u8)>,
    rom: Vec<(u16, u8)>,
    colour: Vec<(u16, u8)>,
    steps: Vec<[u8; 5]>,
}

impl Run {
    fn new(column: Column) -> Self {
        Self { column, ram: Vec::new(), rom: Vec::new(), colour: Vec::new(), steps: Vec::new() }
    }

    fn encode(&self) -> Vec<u8> {
        let mut bytes = Vec::new();
        for section in [&self.ram, &self.rom, &self.colour] {
            bytes.extend((section.len() as u16).to_le_bytes());
            for (place, value) in section {
                bytes.extend(place.to_le_bytes());
                bytes.push(*value);
            }
        }
        bytes.extend((self.steps.len() as u16).to_le_bytes());
        bytes.extend(self.steps.iter().flatten());
        bytes
    }

    /// The byte at which the steps begin, after their count.
    fn steps_at(&self) -> usize {
        8 + 3 * (self.ram.len() + self.rom.len() + self.colour.len())
    }

    fn tick(&mut self) {
        self.steps.push([0; 5]);
    }

    fn write(&mut self, address: u8, value: u8) {
        self.steps.push([1, address, value, 0, 0]);
    }

    fn write_y_expand(&mut self, value: u8) {
        self.steps.push([2, value, 0, 0, 0]);
    }

    fn controls(&mut self, ctrl1: u8, ctrl2: u8, compare: u16) {
        let [low, high] = compare.to_le_bytes();
        self.steps.push([3, ctrl1, ctrl2, low, high]);
    }

    fn control_1(&mut self, value: u8) {
        self.steps.push([8, value, 0, 0, 0]);
    }

    fn control_2(&mut self, value: u8) {
        self.steps.push([9, value, 0, 0, 0]);
    }

    /// $D012 and $D011, as a program sets a compare line; `ctrl1` has the other bits of $D011.
    fn compare_line(&mut self, ctrl1: u8, compare: u16) {
        self.write(0x12, compare as u8);
        self.control_1(with_line(ctrl1, compare));
    }

    fn late_byte(&mut self, value: u8) {
        self.steps.push([4, value, 0, 0, 0]);
    }

    fn border_compares(&mut self) {
        self.steps.push([5, 0, 0, 0, 0]);
    }

    fn bank(&mut self, bank: u8) {
        self.steps.push([7, bank, 0, 0, 0]);
    }

    /// The cycles of a line, and the lines of a frame.
    fn line(&self) -> usize {
        self.column.last_cycle.into()
    }

    fn lines(&self) -> usize {
        usize::from(self.column.last_line) + 1
    }

    /// Where the beam is after these many ticks from power-up: cycle and line.
    fn beam(&self, ticks: usize) -> (usize, usize) {
        match ticks {
            0 => (self.line(), self.lines() - 1),
            // Line 0 begins in cycle 2; the writers below don't look at cycle 1 of it.
            _ => ((ticks - 1) % self.line() + 1, (ticks - 1) / self.line() % self.lines()),
        }
    }
}

/// A value of $D011 with bit 8 of the compare line.
fn with_line(ctrl1: u8, compare: u16) -> u8 {
    (ctrl1 & 0x7F) | (compare >> 1 & 0x80) as u8
}

/// Run files of a folder by their numbers.
pub type Files = fn(u64, u64, Column) -> Vec<u8>;

/// Each file has its own generator, so that it doesn't change with the number of files.
fn generator(seed: u64, number: u64) -> Rng {
    Rng::new(seed.wrapping_mul(0x1_0000_0001).wrapping_add(number))
}

/// In turn: a game, random runs, damaged ones, tiny ones.
pub fn plain(seed: u64, number: u64, column: Column) -> Vec<u8> {
    let r = &mut generator(seed, number);
    match number % 16 {
        0 => {
            let frames = r.within(1, 2) as usize;
            let ticks = frames * column.frame() as usize;
            // Two of three write their registers, the third has them placed.
            let make = if number / 16 % 3 == 2 { placed_game } else { game };
            make(r, column, ticks).encode()
        }
        1..=6 => random(r, column).encode(),
        7..=12 => damaged(r, column, number / 16 * 6 + number % 16 - 7),
        _ => tiny(r, column),
    }
}

/// Run files in which DEN changes around line 0x30.
pub fn late(seed: u64, number: u64, column: Column) -> Vec<u8> {
    late_den(&mut generator(seed, number), column).encode()
}

pub fn make(seed: u64, count: u64, folder: &str, column: Column, files: Files) -> io::Result<()> {
    fs::create_dir_all(folder)?;
    for number in 0..count {
        fs::write(Path::new(folder).join(format!("{number:05}.run")), files(seed, number, column))?;
    }
    Ok(())
}

/// One game's frame, and a few lines of the next.
pub fn make_sample(seed: u64, output: &str, column: Column) -> io::Result<()> {
    let ticks = column.frame() + 2 * u64::from(column.last_cycle);
    fs::write(output, game(&mut Rng::new(seed), column, ticks as usize).encode())
}

fn changes(r: &mut Rng, size: usize, most: u64) -> Vec<(u16, u8)> {
    let count = r.below(most + 1);
    (0..count).map(|_| (r.below(size as u64) as u16, r.byte())).collect()
}

/// Calls at random between stretches of ticks.
fn random(r: &mut Rng, column: Column) -> Run {
    let mut run = Run { ram: changes(r, RAM, 600), rom: changes(r, ROM, 300), colour: changes(r, COLOUR, 200), ..Run::new(column) };
    let length = r.pick(&[50, 500, 4000, 9000, 22000]);
    let quiet = r.pick(&[2, 10, 63, 300]);
    let mut ticks = 0;
    run.bank(r.below(4) as u8);
    while run.steps.len() < length {
        random_call(r, &mut run, ticks);
        for _ in 0..r.below(2 * quiet) {
            run.tick();
            ticks += 1;
            if r.chance(1, 3) {
                run.late_byte(r.byte());
            }
        }
    }
    run.steps.truncate(length);
    run
}

fn random_call(r: &mut Rng, run: &mut Run, ticks: usize) {
    let (_, line) = run.beam(ticks);
    let mut ctrl1 = r.byte();
    if r.chance(4, 5) {
        ctrl1 |= 0x10;
    }
    if r.flag() {
        ctrl1 = (ctrl1 & 0xF8) | (line as u8 & 7);
    }
    let compare = if r.flag() { r.below(512) as u16 } else { (line as u16 + r.below(3) as u16) % run.lines() as u16 };
    match r.below(14) {
        0..=2 => run.controls(ctrl1, r.byte(), compare),
        3 => run.write(r.byte(), r.byte()),
        4 => run.write(2 * r.below(8) as u8 + 1, (line as u8).wrapping_add(r.below(3) as u8)),
        5 => run.write(0x15, r.mask()),
        6 => run.write_y_expand(r.mask()),
        7 => run.border_compares(),
        8 => run.late_byte(r.byte()),
        9 | 10 if r.flag() => run.compare_line(ctrl1, compare),
        9 | 10 => run.control_1(ctrl1),
        // Off the line and on it again.
        11 => {
            run.control_1(with_line(ctrl1, !(line as u16)));
            run.compare_line(ctrl1, line as u16);
        }
        12 => run.control_2(r.byte()),
        _ => run.bank(r.below(4) as u8),
    }
}

/// What a game's frame has in memory, in its registers, and where its sprites are first.
fn set_up(r: &mut Rng, column: Column) -> (Run, [u8; 8]) {
    let mut run = Run::new(column);
    // Screen at 0x0400 with its sprite pointers, two pages of shapes, a character set, colours.
    run.ram.extend((0..1000).map(|k| (0x0400 + k, r.byte())));
    run.ram.extend((0..8).map(|k| (0x07F8 + k, r.within(0x20, 0x27) as u8)));
    run.ram.extend((0x0800..0x0A00).map(|k| (k, r.byte())));
    run.ram.push((0x3FFF, r.byte()));
    run.rom.extend((0..1024).map(|k| (k, r.byte())));
    run.colour.extend((0..1000).map(|k| (k, r.byte() & 0x0F)));

    let y: [u8; 8] = std::array::from_fn(|_| r.within(0x32, 0x60) as u8);
    run.write(0x18, 0x14);
    run.write(0x1A, 0x01);
    run.write(0x15, r.mask());
    run.write_y_expand(r.mask());
    for (k, y) in y.iter().enumerate() {
        run.write(2 * k as u8, r.byte());
        run.write(2 * k as u8 + 1, *y);
        run.write(0x27 + k as u8, r.byte());
    }
    (run, y)
}

/// The sprites once more, further down.
fn again(run: &mut Run, y: &mut [u8; 8]) {
    for (k, y) in y.iter_mut().enumerate() {
        *y = y.wrapping_add(0x60);
        run.write(2 * k as u8 + 1, *y);
    }
}

/// Ticks as a game has them, all by register writes: a screen, sprites used twice a frame, splits above and below line 0x100, lines of
/// FLI, a crunch, open borders.
fn game(r: &mut Rng, column: Column, ticks: usize) -> Run {
    let (mut run, mut y) = set_up(r, column);
    let mut ctrl1 = 0x18 | r.below(8) as u8;
    let ctrl2 = 0xC8 | r.below(8) as u8;
    let splits = [r.within(0x40, 0x70), r.within(0x80, 0xE0), r.within(0x100, 0x105)].map(|line| line as u16);
    let fli = r.within(0x38, 0xE0) as usize;
    let fli_cycle = r.within(10, 16) as usize;
    let crunch = r.within(0x40, 0xC0) as usize;
    let forced = r.within(0x38, 0xF0) as usize;
    let forced_cycle = r.within(16, 50) as usize;
    let (open_rows, open_sides) = (r.flag(), r.flag());
    // The split that is waited for.
    let mut next = 0;

    run.compare_line(ctrl1, splits[next]);
    run.control_2(ctrl2);
    for ticks in 1..=ticks {
        run.tick();
        let (cycle, line) = run.beam(ticks);
        // The board's byte in the cycles in which the CPU may still have the bus.
        if (15..=18).contains(&cycle) && (0x30..=0xF7).contains(&line) {
            run.late_byte(r.byte());
        }
        // A handler acts some cycles after its interrupt; the first two change the mode.
        if cycle == 12 && line == splits[next].into() {
            run.write(0x19, 0x0F);
            run.write(0x21, r.byte());
            if next == 2 {
                next = 0;
            } else {
                run.write(0x18, if next == 0 { r.byte() } else { 0x14 });
                ctrl1 ^= 0x20;
                run.control_2(if next == 0 { ctrl2 ^ 0x10 } else { ctrl2 });
                next += 1;
            }
            run.compare_line(ctrl1, splits[next]);
            if next == 2 {
                again(&mut run, &mut y);
            }
        }
        if line == crunch && (cycle == 14 || cycle == 15) {
            run.write_y_expand(if cycle == 14 { 0xFF } else { r.mask() });
        }
        // Every line of a row is a bad one.
        if (fli..fli + 8).contains(&line) && cycle == fli_cycle {
            run.control_1(with_line((ctrl1 & 0xF8) | (line as u8 & 7), splits[next]));
        }
        if line == fli + 8 && cycle == fli_cycle {
            run.control_1(with_line(ctrl1, splits[next]));
        }
        // A bad line forced in the middle of a line.
        if line == forced && (cycle == forced_cycle || cycle == 60) {
            let scroll = if cycle == 60 { ctrl1 } else { line as u8 };
            run.control_1(with_line((ctrl1 & 0xF8) | (scroll & 7), splits[next]));
        }
        if open_rows && (line == 0xF9 || line == 0xFD) && cycle == 30 {
            run.control_1(with_line(if line == 0xF9 { ctrl1 & 0xF7 } else { ctrl1 }, splits[next]));
        }
        if open_sides && (0x90..0xA0).contains(&line) && (cycle == 55 || cycle == 57) {
            run.control_2(if cycle == 55 { ctrl2 & 0xF7 } else { ctrl2 });
        }
    }
    run
}

/// The same by the placing calls: splits, a forced bad line, an open border.
fn placed_game(r: &mut Rng, column: Column, ticks: usize) -> Run {
    let (mut run, mut y) = set_up(r, column);
    let yscroll = r.below(8) as u8;
    let mut ctrl1 = 0x18 | yscroll;
    let ctrl2 = 0xC8 | r.below(8) as u8;
    let first_split = r.within(0x40, 0x70) as usize;
    let second_split = r.within(0x80, 0xE0) as usize;
    let crunch = r.within(0x40, 0xC0) as usize;
    let forced = r.within(0x38, 0xF0) as usize;
    let forced_cycle = r.within(16, 50) as usize;
    let open_border = r.flag();

    run.controls(ctrl1, ctrl2, first_split as u16);
    run.border_compares();

    for ticks in 1..=ticks {
        run.tick();
        let (cycle, line) = run.beam(ticks);
        // The board's byte in the cycles in which the CPU may still have the bus.
        if (15..=18).contains(&cycle) && (0x30..=0xF7).contains(&line) {
            run.late_byte(r.byte());
        }
        // A handler acts some cycles after its interrupt.
        if cycle == 12 && line == first_split {
            run.write(0x19, 0x0F);
            run.write(0x21, r.byte());
            run.write(0x18, r.byte());
            ctrl1 ^= 0x20;
            run.controls(ctrl1, ctrl2 ^ 0x10, second_split as u16);
        }
        if cycle == 12 && line == second_split {
            run.write(0x19, 0x0F);
            run.write(0x18, 0x14);
            ctrl1 ^= 0x20;
            run.controls(ctrl1, ctrl2, first_split as u16);
            again(&mut run, &mut y);
        }
        if line == crunch && (cycle == 14 || cycle == 15) {
            run.write_y_expand(if cycle == 14 { 0xFF } else { r.mask() });
        }
        // A bad line forced in the middle of a line.
        if line == forced && cycle == forced_cycle {
            run.controls((ctrl1 & 0xF8) | (line as u8 & 7), ctrl2, second_split as u16);
        }
        if line == forced && cycle == 60 {
            run.controls(ctrl1, ctrl2, second_split as u16);
        }
        if open_border && line == 0xF9 && cycle == 30 {
            run.controls(ctrl1 & 0xF7, ctrl2, first_split as u16);
            run.border_compares();
        }
        if open_border && line == 0x100 && cycle == 30 {
            run.controls(ctrl1, ctrl2, first_split as u16);
            run.border_compares();
        }
    }
    run
}

/// A frame, at times a second, whose DEN is mostly clear above line 0x30 and is set and cleared anywhere on it and beside it.
fn late_den(r: &mut Rng, column: Column) -> Run {
    let mut run = Run { ram: changes(r, RAM, 60), colour: changes(r, COLOUR, 40), ..Run::new(column) };
    let (long, frame) = (run.line(), column.frame() as usize);
    let frames = if r.chance(1, 8) { 2 } else { 1 };
    let ctrl2 = r.byte();
    // DEN is written, or placed.
    let written = r.flag();
    // Mostly a bad line on 0x30 itself, else one of the seven after it.
    let row = if r.chance(2, 3) { 0 } else { r.below(8) as u8 };
    run.controls(if r.chance(1, 5) { 0x18 } else { 0x08 } | row, ctrl2, r.pick(&[0, 0x30, 0x31, 0x100]));
    run.border_compares();
    run.write(0x15, r.mask());
    for k in 0..8 {
        run.write(2 * k + 1, r.within(0x28, 0x38) as u8);
    }
    let last = (frames - 1) * frame + long * r.within(0x32, 0x48) as usize;
    // From a few ticks before the line on, and at times after it.
    let mut next = long * 0x30 - 10 + r.below(76) as usize;
    for ticks in 1..=last {
        run.tick();
        let (_, line) = run.beam(ticks);
        if ticks == next {
            let den = if r.chance(2, 3) { 0x10 } else { 0 };
            let scroll = if r.chance(3, 4) { row } else { r.below(8) as u8 };
            if written {
                run.control_1(den | 0x08 | scroll);
            } else {
                run.controls(den | 0x08 | scroll, ctrl2, 0x30);
            }
            next += r.pick(&[1, 2, 5, 11, 30, 64]) as usize;
            // From line 0x32 on the next frame's line.
            if next > long * 0x32 && next < frame {
                next = frame + long * 0x30 - 10 + r.below(76) as usize;
            }
        } else if (0x30..0x33).contains(&line) && r.chance(1, 60) {
            random_call(r, &mut run, ticks);
        }
        if r.chance(1, 8) && (0x30..0x40).contains(&line) {
            run.late_byte(r.byte());
        }
    }
    run
}

/// What is wrong with a damaged run. Sections are 0 RAM, 1 ROM, 2 colour RAM.
#[derive(Clone, Copy)]
enum Fault {
    CutAnywhere,
    CutInStep,
    BytesTooMany,
    AnyByte,
    /// The section's count, this much above its limit, or as high as can be.
    Count(usize, Option<u16>),
    /// An address this much past the section's memory, or as high as can be.
    Address(usize, Option<u16>),
    /// An address past its memory in a record that is cut off: 7 comes first.
    AddressCut,
    /// A step that is not allowed.
    Step([u8; 5]),
    /// A step of the retired kind, with any fields; what comes after it is not judged, and is wrong at times.
    Retired,
    /// The same, cut off: 7 comes first.
    RetiredCut,
    /// A byte of this kind's step that is not used, and not 0.
    Unused(u8, usize),
    FirstCountMissing,
    FrontMissing,
    StepsMissing,
}

/// Every fault, so that each comes in its turn.
fn faults() -> Vec<Fault> {
    let mut all = vec![Fault::CutAnywhere, Fault::CutInStep, Fault::BytesTooMany, Fault::AnyByte, Fault::Retired, Fault::RetiredCut];
    for section in 0..3 {
        all.extend([Some(0), Some(1), None].map(|above| Fault::Count(section, above)));
        all.extend([Some(0), None].map(|past| Fault::Address(section, past)));
    }
    all.push(Fault::AddressCut);
    let steps = [[10, 0, 0, 0, 0], [255, 0, 0, 0, 0], [7, 4, 0, 0, 0], [3, 0x1B, 8, 0, 2], [3, 0x1B, 8, 255, 255]];
    let retired = [[6, 0, 0, 0, 0], [6, 1, 0, 1, 1], [6, 2, 1, 0, 1], [6, 0, 1, 0, 2], [6, 255, 255, 255, 255]];
    all.extend(steps.into_iter().chain(retired).map(Fault::Step));
    for (kind, used) in [(0, 0), (1, 2), (2, 1), (4, 1), (5, 0), (7, 1), (8, 1), (9, 1)] {
        all.extend((used + 1..=4).map(|place| Fault::Unused(kind, place)));
    }
    all.extend([Fault::FirstCountMissing, Fault::FrontMissing, Fault::StepsMissing]);
    all
}

/// A short run with one fault, each in turn.
fn damaged(r: &mut Rng, column: Column, turn: u64) -> Vec<u8> {
    let mut run = Run { ram: changes(r, RAM, 4), rom: changes(r, ROM, 4), colour: changes(r, COLOUR, 4), ..Run::new(column) };
    for _ in 0..r.within(1, 40) {
        if r.flag() {
            run.tick();
        } else {
            random_call(r, &mut run, 0);
        }
    }
    let step = r.below(run.steps.len() as u64) as usize;
    let limits = [RAM as u16, ROM as u16, COLOUR as u16];
    let all = faults();
    match all[turn as usize % all.len()] {
        Fault::CutAnywhere => {
            let mut bytes = run.encode();
            bytes.truncate(r.below(bytes.len() as u64) as usize);
            return bytes;
        }
        Fault::CutInStep => {
            let mut bytes = run.encode();
            bytes.truncate(run.steps_at() + 5 * step + r.below(5) as usize);
            return bytes;
        }
        Fault::BytesTooMany => {
            let mut bytes = run.encode();
            bytes.extend((0..r.within(1, 6)).map(|_| r.byte()));
            return bytes;
        }
        Fault::AnyByte => {
            let mut bytes = run.encode();
            let place = r.below(bytes.len() as u64) as usize;
            bytes[place] = r.byte();
            return bytes;
        }
        Fault::Count(section, above) => {
            let before = [0, 2 + 3 * run.ram.len(), 4 + 3 * (run.ram.len() + run.rom.len())][section];
            let count = above.map_or(0xFFFF, |above| limits[section] + above);
            let mut bytes = run.encode();
            bytes[before..before + 2].copy_from_slice(&count.to_le_bytes());
            // With nothing after it, or with everything.
            if r.flag() {
                bytes.truncate(before + 2);
            }
            return bytes;
        }
        Fault::Address(section, past) => {
            let address = past.map_or(0xFFFF, |past| limits[section] + past);
            [&mut run.ram, &mut run.rom, &mut run.colour][section].push((address, 1));
        }
        Fault::AddressCut => {
            run.steps.clear();
            run.colour.push((0xFFFF, 1));
            let mut bytes = run.encode();
            bytes.truncate(run.steps_at() - 2 - r.within(1, 2) as usize);
            return bytes;
        }
        Fault::Step(record) => run.steps[step] = record,
        Fault::Retired => {
            run.steps[step] = [6, r.byte(), r.byte(), r.byte(), r.byte()];
            if r.flag() {
                run.steps.insert(step + 1, [10, 0, 0, 0, 0]);
            }
            let mut bytes = run.encode();
            let after = run.steps_at() + 5 * (step + 1);
            if r.chance(1, 3) {
                bytes.truncate(after + r.below((bytes.len() - after) as u64 + 1) as usize);
            }
            return bytes;
        }
        Fault::RetiredCut => {
            run.steps[step] = [6, r.byte(), r.byte(), r.byte(), r.byte()];
            let mut bytes = run.encode();
            bytes.truncate(run.steps_at() + 5 * step + r.within(1, 4) as usize);
            return bytes;
        }
        Fault::Unused(kind, place) => {
            let mut record = [kind, 0, 0, 0, 0];
            record[place] = r.pick(&[1, 255]);
            run.steps[step] = record;
        }
        Fault::FirstCountMissing => return run.encode().split_off(2),
        Fault::FrontMissing => return run.encode().split_off(r.below(9) as usize),
        Fault::StepsMissing => {
            let mut bytes = run.encode();
            let count = run.steps.len() as u16 + r.within(1, 300) as u16;
            let place = run.steps_at() - 2;
            bytes[place..place + 2].copy_from_slice(&count.to_le_bytes());
            return bytes;
        }
    }
    run.encode()
}

/// No bytes, a few bytes, no steps, a few steps of one kind.
fn tiny(r: &mut Rng, column: Column) -> Vec<u8> {
    match r.below(4) {
        0 => vec![0; r.below(12) as usize],
        1 => (0..r.below(24)).map(|_| r.pick(&[0, 0, 0, 1, 2, 255])).collect(),
        2 => {
            let mut run = Run::new(column);
            for _ in 0..r.below(130) {
                run.tick();
            }
            run.encode()
        }
        _ => {
            let mut run = Run::new(column);
            for _ in 0..r.below(6) {
                random_call(r, &mut run, 0);
                run.tick();
            }
            run.encode()
        }
    }
}
