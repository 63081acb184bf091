//! Made-up states: accepted ones with a lean towards the corners, refused ones, and wild ones.

use crate::accept::{vmli_limit, CLOCK_LIMIT};
use crate::kind::{column, Column};
use crate::rng::Rng;
use crate::scene::{Matrix, Sprite, State};

/// Lines at which something begins or ends, and their neighbours.
const LINES: [u16; 21] = [0, 1, 0x2F, 0x30, 0x31, 0x32, 0x33, 0x34, 0x36, 0x37, 0x38, 0xF6, 0xF7, 0xF8, 0xFA, 0xFB, 0xFC, 0xFF, 0x100, 0x101, 0x130];

/// One of them, or of the last three of a frame.
fn corner(r: &mut Rng, column: Column) -> u16 {
    let line = if r.chance(1, 7) { column.last_line - r.below(3) as u16 } else { r.pick(&LINES) };
    line.min(column.last_line)
}

/// A made-up state, and the flags that were drawn beside its DMA mask, one for each sprite. A scene up to version 2 had both, and in two of
/// five states they are drawn apart. A state has the mask alone (02 (ix)): the flags only say which states were none that agree.
pub type Drawn = (State, u8);

/// Any accepted state of a known kind at a cycle. Every field takes every value that acceptance allows.
pub fn accepted_state(r: &mut Rng, kind: u8, cycle: u16) -> Drawn {
    let column = column(kind);
    let (raster, compared) = lines(r, column, cycle);
    let clock = clock(r);
    let dma = r.mask();
    let agree = r.chance(3, 5);
    let aec_counter = r.within(-1, 3) as i8;
    let mut flags = 0;
    let state = State {
        cycle,
        raster,
        den: r.flag(),
        rsel: r.flag(),
        yscroll: if r.flag() { r.byte() & 7 } else { r.byte() },
        bad_line: r.flag(),
        rising_edge: r.flag(),
        ba_output_high: r.flag(),

        x: array(r),
        y: std::array::from_fn(|_| if r.chance(2, 5) { compared as u8 } else { r.byte() }),
        sprite_colours: array(r),
        backgrounds: array(r),
        x_high: r.byte(),
        enable: r.mask(),
        y_expand: r.mask(),
        x_expand: r.byte(),
        priority: r.byte(),
        multicolour: r.byte(),
        multicolour_0: r.byte(),
        multicolour_1: r.byte(),
        ctrl1: ctrl1(r, compared),
        ctrl2: r.byte(),
        compare: compare_line(r, column, compared),
        // Half of them put the characters at 0x1000 or 0x1800, where two banks show ROM.
        memory_pointers: if r.flag() { (r.byte() & 0xF1) | r.pick(&[0x04, 0x06]) } else { r.byte() },
        border_colour: r.byte(),

        irq_flags: r.byte(),
        irq_enable: if r.flag() { r.byte() & 0x0F } else { r.byte() },
        irq_line: r.flag(),

        vertical_border: r.flag(),
        main_border: r.flag(),
        main_remembered: r.flag(),
        output_disabled: r.chance(1, 3),
        part_40: r.byte(),
        part_38: r.byte(),
        top: border_line(r, 0x33, 0x37, compared),
        bottom: border_line(r, 0xFB, 0xF7, compared),

        flip: r.mask(),
        clear_pending: r.mask(),
        dma,
        previous_dma: r.mask(),
        sprite_display: r.mask(),
        vertical_match: r.byte(),

        sprites: std::array::from_fn(|k| {
            let (pointer, mc, base) = (r.byte(), counter(r), counter(r));
            flags |= if agree { dma & 1 << k } else { u8::from(r.flag()) << k };
            Sprite { number: k as u8, pointer, mc, base, word: r.next() as u32, bytes: array(r) }
        }),
        matrix: Matrix(std::array::from_fn(|_| r.word())),

        vc: video_counter(r),
        vc_base: video_counter(r),
        rc: row(r),
        vmli: if r.chance(1, 4) { vmli_limit(cycle) } else { r.below(u64::from(vmli_limit(cycle)) + 1) as u8 },
        ba_low: r.flag(),
        // The stored flag and the counter may disagree.
        aec_low: if r.chance(3, 4) { aec_counter < 0 } else { r.flag() },
        irq_changed: r.flag(),
        displaying: r.chance(2, 3),
        entering: r.chance(1, 4),
        accessing: r.flag(),
        mode: r.byte() & 7,
        previous_mode: r.byte() & 7,
        mode_changing: r.flag(),
        character: r.word(),
        carry: r.word(),
        graphics: r.byte(),
        den_latch: r.chance(3, 4),
        frame_flag: if cycle == 1 { r.flag() } else { r.chance(1, 4) },
        raster_match: r.flag(),
        aec_counter,
        clock_fall: r.next() as i64,
        clock_rise: r.next() as i64,
        forced_clock: forced_clock(r, clock),
        clock,
        pending: if r.flag() { Some(r.below(40) as u8) } else { None },
        kind,
        lost: if r.chance(1, 4) { cycle as u8 } else { r.below(u64::from(cycle) + 1) as u8 },
        refresh: refresh(r),
    };
    (state, flags)
}

/// A refresh counter: any byte, often one from which a line's accesses go past 0. It is drawn aside, so that a seed makes the states that
/// it made before there was one.
fn refresh(r: &Rng) -> u8 {
    let mut aside = r.clone();
    if aside.chance(1, 3) {
        aside.pick(&[0, 0, 1, 2, 3, 4, 5, 0xFE, 0xFF])
    } else {
        aside.byte()
    }
}

/// Bends a state so that the next tick merges: displaying, no bad line, RC 0, output enabled, and
/// a forced clock less than forty away. Only cycles 15 to 54 are followed by a graphics access.
pub fn bend_to_merge(r: &mut Rng, s: &mut State) {
    let elapsed = if r.chance(1, 8) { r.pick(&[-3, -2, -1, 0, 38, 39, 40, 41]) } else { r.within(0, 39) };
    s.displaying = true;
    s.entering = false;
    s.output_disabled = false;
    s.rc = 0;
    // One of the two things that keep a line from being bad.
    if r.flag() {
        s.den_latch = false;
    } else {
        s.ctrl1 = (s.ctrl1 & 0xF8) | (s.raster as u8).wrapping_add(r.within(1, 7) as u8) & 7;
    }
    // The left border's compare, in cycle 17 or 18, may disable the output again.
    if r.chance(3, 4) {
        s.bottom = 0xFFFF;
    }
    s.clock = s.clock.clamp(64, CLOCK_LIMIT - 64);
    s.forced_clock = s.clock - elapsed;
    // The two indices apart, together and next to each other.
    if r.chance(1, 4) {
        let near = (elapsed + r.within(-1, 1)).clamp(0, vmli_limit(s.cycle).into());
        s.vmli = near as u8;
    }
}

/// Bends a state so that the next tick's graphics access is in the middle of a mode change.
pub fn bend_to_mode_change(r: &mut Rng, s: &mut State, from: u8, to: u8) {
    s.displaying = true;
    s.entering = r.chance(1, 8);
    s.previous_mode = from;
    s.ctrl1 = (s.ctrl1 & 0x9F) | (to & 4) << 4 | (to & 2) << 4;
    s.ctrl2 = (s.ctrl2 & 0xEF) | (to & 1) << 4;
}

/// Bends a state so that the next tick's graphics access is idle, with or without the place of 0x38FF.
pub fn bend_to_idle(r: &mut Rng, s: &mut State) {
    s.entering = r.chance(3, 4);
    s.displaying = s.entering && r.flag();
    s.clock = s.clock.clamp(64, CLOCK_LIMIT - 64);
    s.forced_clock = s.clock + r.pick(&[0, 1, 2, 2, 2, 3, 4]);
}

/// Bends a state at the last cycle of its line towards what a line as a whole has to itself (02 (xii)): a forced clock inside the line, and
/// with it forty columns that may merge; a bad line that is no rise, or that a frame's end ends; the last clocks that take a line.
pub fn bend_to_line(r: &mut Rng, s: &mut State) {
    let last = i64::from(column(s.kind).last_cycle);
    match r.below(8) {
        0 | 1 => {
            s.displaying = true;
            s.rc = 0;
            s.den_latch &= r.chance(1, 4);
            (s.vertical_border, s.output_disabled) = (r.chance(1, 8), r.chance(1, 4));
            s.bottom = if r.chance(3, 4) { 0xFFFF } else { s.bottom };
            s.clock = s.clock.clamp(64, CLOCK_LIMIT - 4 * last);
            s.forced_clock = s.clock + r.within(-24, 2 * last + 4);
        }
        2 => {
            if !(0x2F..=0xF6).contains(&s.raster) {
                s.raster = r.within(0x2F, 0xF6) as u16;
            }
            s.den_latch = true;
            s.ctrl1 = (s.ctrl1 & 0xE8) | 0x10 | ((s.raster + 1) as u8 & 7);
            s.bad_line = r.flag();
            s.displaying = r.chance(1, 4);
            s.frame_flag = r.chance(1, 4);
        }
        3 if r.flag() => s.clock = CLOCK_LIMIT - 2 * last + r.pick(&[-5, -4, -3, -2, -1, 0, 0, 1, 2, 3, 4]),
        _ => {}
    }
}

/// How many ticks a run has: none, some, whole lines and just beside them, and at times more than a frame.
pub fn run_of(r: &mut Rng, last: u16) -> u16 {
    match r.below(16) {
        0 => 0,
        1..=4 => 1 + r.below(u64::from(last)) as u16,
        5..=12 => last * (1 + r.below(6) as u16) + r.pick(&[0, 0, 1, 2, last - 1]) - u16::from(r.chance(1, 4)),
        13 | 14 => r.below(1000) as u16,
        _ if r.chance(1, 16) => r.word() / 2,
        _ => r.below(3000) as u16,
    }
}

/// A value for $D011 while the register holds another: a bit of it changed, its mode kept, or any; DEN mostly set, YSCROLL often that
/// of the line. Bit 7 is the compared line's bit 8.
pub fn control_1(r: &mut Rng, held: u8, raster: u16, compared: u16) -> u8 {
    let value = match r.below(5) {
        0 => held,
        1 => held ^ 1 << r.below(7),
        2 => (r.byte() & 0x9F) | (held & 0x60),
        _ => ctrl1(r, raster),
    };
    (value & 0x7F) | (compared >> 1 & 0x80) as u8
}

/// The same for $D016.
pub fn control_2(r: &mut Rng, held: u8) -> u8 {
    match r.below(5) {
        0 => held,
        1 => held ^ 1 << r.below(8),
        2 => (r.byte() & 0xEF) | (held & 0x10),
        3 => held ^ 0x10,
        _ => r.byte(),
    }
}

/// Bends a state so that a write of $D011 compares a line near the raster: the same, a neighbour, one apart in bit 8 alone. Answers
/// the value to be written.
pub fn bend_to_compare(r: &mut Rng, s: &mut State) -> u8 {
    let last = column(s.kind).last_line;
    match s.cycle {
        // A frame's end, which cycle 1 has begun and not done; and what is left of it.
        1 if r.flag() => (s.raster, s.frame_flag) = (last, true),
        2 if r.flag() => (s.raster, s.frame_flag, s.raster_match) = (0, false, r.chance(1, 4)),
        _ if r.chance(1, 8) => s.raster = 0,
        _ if r.chance(1, 8) => s.raster = last,
        // Of the wild lines most can be met.
        _ if r.chance(3, 4) => s.raster %= 512,
        _ => {}
    }
    let line = match r.below(8) {
        0..=2 => s.raster,
        3 => s.raster.wrapping_add(1),
        4 => s.raster.wrapping_sub(1),
        5 | 6 => s.raster ^ 0x100,
        _ => r.word(),
    };
    s.compare = (s.compare & 0xFE00) | u16::from(r.flag()) << 8 | (line & 0xFF);
    control_1(r, s.ctrl1, s.raster, line)
}

/// Puts one field at the edge of what the state's kind accepts, or just past it.
pub fn bend_to_edge(r: &mut Rng, s: &mut State, past: bool) {
    fn choose<T: Copy>(r: &mut Rng, past: bool, inside: &[T], outside: &[T]) -> T {
        r.pick(if past { outside } else { inside })
    }
    let k = r.below(8) as usize;
    let (cycle, line) = (column(s.kind).last_cycle, column(s.kind).last_line);
    match r.below(15) {
        // On a 6569 just past the edge are cycles that only a 6567R8 has, on that one lines that only a 6569 has.
        0 if past => s.cycle = r.pick(&[0, cycle + 1, cycle + 2, 128, 256, 256 + cycle, 0x3F01, 0xFFFF]),
        0 | 1 => s.raster = choose(r, past, &[0, line], &[line + 1, line + 2, 312, 511, 512, 0x0130 + 0x200, 0xFFFF]),
        2 => s.compare = choose(r, past, &[0, 511, line + 1], &[512, 0x8000, 0xFFFF]),
        3 => s.aec_counter = choose(r, past, &[-1, 3], &[-2, 4, -128, 127]),
        4 => s.vc = choose(r, past, &[0, 1023], &[1024, 0xFFFF]),
        5 => s.vc_base = choose(r, past, &[0, 1023], &[1024, 0xFFFF]),
        6 => s.rc = choose(r, past, &[0, 7], &[8, 255]),
        7 => s.sprites[k].mc = choose(r, past, &[0, 63], &[64, 255]),
        8 => s.sprites[k].base = choose(r, past, &[0, 63], &[64, 255]),
        9 if past => s.sprites[k].number = if r.flag() { r.pick(&[8, 255]) } else { (k as u8 + 1) & 7 },
        9 | 10 => {
            let limit = vmli_limit(s.cycle);
            s.vmli = choose(r, past, &[0, limit], &[limit + 1, 41, 255]);
        }
        11 => s.clock = choose(r, past, &[0, CLOCK_LIMIT - 3, CLOCK_LIMIT - 2], &[-1, -2, CLOCK_LIMIT + 1, i64::MIN, i64::MAX]),
        12 => s.forced_clock = choose(r, past, &[0, CLOCK_LIMIT], &[-1, -40, CLOCK_LIMIT + 1, i64::MIN, i64::MAX]),
        // Just past the edge are numbers that a line's last cycle would allow.
        13 => {
            let most = s.cycle.min(254) as u8;
            s.lost = choose(r, past, &[0, most], &[most + 1, (cycle as u8).max(most + 1), 66, 128, 255]);
        }
        // An accepted clock from which no tick is possible.
        _ => s.clock = r.pick(&[CLOCK_LIMIT - 1, CLOCK_LIMIT]),
    }
}

/// Any scene at all of a kind. Few of these are accepted; the calls that never refuse take them.
pub fn wild_state(r: &mut Rng, kind: u8) -> Drawn {
    let (mut s, flags) = accepted_state(r, kind, 1);
    s.cycle = if r.flag() { r.below(70) as u16 } else { r.word() };
    s.raster = r.word();
    s.compare = r.word();
    s.top = r.word();
    s.bottom = r.word();
    s.vc = r.word();
    s.vc_base = r.word();
    s.rc = r.byte();
    s.vmli = r.byte();
    s.aec_counter = r.byte() as i8;
    s.lost = r.byte();
    s.clock = any_clock(r);
    s.forced_clock = any_clock(r);
    for sprite in &mut s.sprites {
        sprite.number = r.byte();
        sprite.mc = r.byte();
        sprite.base = r.byte();
    }
    (s, flags)
}

/// The state's line, and the one that the next tick compares: cycle 1 moves the raster on first, but
/// not from the last line.
fn lines(r: &mut Rng, column: Column, cycle: u16) -> (u16, u16) {
    let line = if r.chance(2, 5) { corner(r, column) } else { r.below(u64::from(column.last_line) + 1) as u16 };
    if cycle != column.last_cycle {
        (line, line)
    } else if line == 0 || r.chance(1, 6) {
        (column.last_line, column.last_line)
    } else if r.chance(1, 6) {
        (0x2F, 0x30)
    } else {
        (line - 1, line)
    }
}

fn array<const N: usize>(r: &mut Rng) -> [u8; N] {
    std::array::from_fn(|_| r.byte())
}

/// DEN is mostly set, and YSCROLL often meets the line.
fn ctrl1(r: &mut Rng, raster: u16) -> u8 {
    let mut value = r.byte();
    if r.chance(1, 2) {
        value |= 0x10;
    }
    if r.chance(3, 5) {
        value = (value & 0xF8) | (raster as u8 & 7);
    }
    value
}

fn compare_line(r: &mut Rng, column: Column, raster: u16) -> u16 {
    match r.below(6) {
        0 | 1 => raster,
        2 => 0,
        3 => corner(r, column),
        _ => r.below(512) as u16,
    }
}

/// The two lines of the chip mostly, at times the present line, at times any number.
fn border_line(r: &mut Rng, with_rsel: u16, without: u16, raster: u16) -> u16 {
    match r.below(6) {
        0 | 1 => with_rsel,
        2 => without,
        3 | 4 => raster,
        _ => r.word(),
    }
}

fn counter(r: &mut Rng) -> u8 {
    if r.chance(1, 4) {
        r.pick(&[0, 3, 60, 61, 62, 63])
    } else {
        r.byte() & 63
    }
}

fn video_counter(r: &mut Rng) -> u16 {
    if r.chance(1, 6) {
        r.pick(&[0, 39, 40, 960, 999, 1000, 1022, 1023])
    } else {
        r.below(1024) as u16
    }
}

fn row(r: &mut Rng) -> u8 {
    match r.below(4) {
        0 => 0,
        1 => 7,
        _ => r.byte() & 7,
    }
}

fn clock(r: &mut Rng) -> i64 {
    match r.below(8) {
        0 => r.within(0, 200),
        1 => CLOCK_LIMIT - 2 - r.within(0, 200),
        2 => r.within(0, CLOCK_LIMIT - 2),
        // What runs have: even, and not far from 0.
        _ => 2 * r.within(0, 1 << 24),
    }
}

/// Near the clock mostly, where the merge and 0x38FF look at it.
fn forced_clock(r: &mut Rng, clock: i64) -> i64 {
    let forced = match r.below(6) {
        0 => 0,
        1 => r.within(0, CLOCK_LIMIT),
        2 => clock + 2,
        _ => clock - r.within(-4, 44),
    };
    forced.clamp(0, CLOCK_LIMIT)
}

fn any_clock(r: &mut Rng) -> i64 {
    match r.below(4) {
        0 => r.next() as i64,
        1 => r.pick(&[-1, 0, CLOCK_LIMIT, CLOCK_LIMIT + 1, i64::MIN, i64::MAX]),
        _ => r.within(0, CLOCK_LIMIT),
    }
}
