//! Small checks of the oracle's own parts.

use crate::accept::{accepted, CLOCK_LIMIT};
use crate::ask::{mask_at, panics};
use crate::bus::bus;
use crate::chart::chart;
use crate::chip::{Chip, Refusal};
use crate::dump::dump;
use crate::kind::{column, Slot, MOS6567R8, MOS6569, NTSC, PAL, UNKNOWN};
use crate::late::is_late;
use crate::memory::Memory;
use crate::model::{powered, Model};
use crate::reads::{Reads, Reason};
use crate::replay::{answer_case, Case, AFTER, CYCLES_LOST, LATE_BYTE, LINE, OTHERS, READS, TICK, TICKS};
use crate::rng::Rng;
use crate::scene::{fields, flag_at, renewed, Sort, State, SCENE, WITHOUT_KIND, WITHOUT_LOST, WITHOUT_REFRESH};
use crate::states::{accepted_state, wild_state};
use crate::vic::fsm::{DisplayState, GraphicsMode};
use crate::vic::glue::Machine;
use crate::vic::state::VicII;
use crate::vic::timing::VicTiming;

type Check = (&'static str, fn() -> bool);

const CHECKS: &[Check] = &[
    ("scenes keep their bytes", scenes_keep_their_bytes),
    ("what is not a scene is told", others_are_told),
    ("older scenes, what becomes of their flags, and what they get", older_scenes),
    ("the chip keeps a scene", the_chip_keeps_a_scene),
    ("power-up", power_up),
    ("document 01's chart", the_chart),
    ("faults of a run file", faults),
    ("docs/FORMATS.md's dump", the_dump),
    ("the twelve settled by proof", the_twelve),
    ("the mask follows the slots", the_mask),
    ("what the original does where the port leaves it", the_originals_own),
    ("a late DEN, and the stand-in of it", the_late_den),
    ("the original's two records of sprite DMA", the_two_records),
    ("the writes of $D011 and $D016", the_control_writes),
    ("what a tick reads", the_reads),
    ("what a tick reads: the original's trace by the table", the_trace),
    ("what a tick reads: answers, and the text of bus", the_told_reads),
    ("what a tick reads: the 6567R8", the_reads_of_the_6567r8),
    ("cycles lost on a line", the_lost_cycles),
    ("refresh, and its counter", the_refresh),
    ("a line, a run of ticks, and what refuses them", the_lines),
    ("the 6567R8: its line, its frame and its slots", the_column),
    ("the 6567R8: power-up, and what is refused", the_kinds),
    ("the 6567R8: what goes with sprite 0's slot", the_first_slot),
    ("the 6567R8: slots and arbitration", the_slots),
];

pub fn selftest() -> bool {
    let mut sound = true;
    for (name, check) in CHECKS {
        let passed = check();
        println!("{} {name}", if passed { "ok    " } else { "FAILED" });
        sound &= passed;
    }
    sound
}

fn any_state(r: &mut Rng, kind: u8) -> State {
    let cycle = r.within(1, column(kind).last_cycle.into()) as u16;
    if r.flag() {
        accepted_state(r, kind, cycle).0
    } else {
        wild_state(r, kind).0
    }
}

fn scenes_keep_their_bytes() -> bool {
    let mut r = Rng::new(1);
    (0..=255).cycle().take(20_000).all(|number: u8| {
        let mut state = any_state(&mut r, number % 2);
        // Any number is a kind in a scene.
        state.kind = number;
        let bytes = state.encode();
        (bytes[308], bytes[309], bytes[310]) == (number, state.lost, state.refresh)
            && State::decode(&bytes).is_some_and(|again| again == state && again.encode() == bytes)
    })
}

/// Every byte that may not be anything is tried with all its values.
fn others_are_told() -> bool {
    let bytes = accepted_state(&mut Rng::new(2), MOS6569, 17).0.encode();
    let with = |place: usize, value: u8| {
        let mut other = bytes;
        other[place] = value;
        State::decode(&other).is_some()
    };
    let head = (0..4).all(|place| (0..=255).all(|value| with(place, value) == (value == bytes[place])));
    let limits = fields().iter().all(|field| {
        (0..=255).all(|value| {
            let allowed = match field.sort {
                Sort::Number | Sort::Signed => true,
                Sort::Flag => value <= 1,
                Sort::Mode => value <= 7,
                Sort::Place => value <= 39 || value == 255,
                Sort::Zero => value == 0,
            };
            with(field.offset, value) == allowed
        })
    });
    let longer = [&bytes[..], &[0]].concat();
    head && limits && State::decode(&bytes[..SCENE - 1]).is_none() && State::decode(&longer).is_none()
}

/// A scene of this version as the state has it, with these flags.
fn older(state: &State, version: u8, flags: [u8; 8]) -> Vec<u8> {
    let mut bytes = state.encode().to_vec();
    bytes[3] = version;
    (0..8).for_each(|k| bytes[flag_at(k)] = flags[k]);
    bytes.truncate(match version {
        1 => WITHOUT_KIND,
        2 | 3 => WITHOUT_LOST,
        4 => WITHOUT_REFRESH,
        _ => SCENE,
    });
    bytes
}

/// docs/FORMATS.md, "Scene": versions 1 and 2 are brought in with the mask, whatever their flags say, and a flag is 0 or 1. Up to
/// version 3 a scene has lost no cycle, and every older one has the refresh counter that a frame begins with.
fn older_scenes() -> bool {
    let mut r = Rng::new(5);
    let read = |bytes: &[u8]| State::decode(&renewed(bytes));
    let brought = (0..20_000).all(|_| {
        let state = State { refresh: 0xFF, ..any_state(&mut r, MOS6569) };
        let fourth = read(&older(&state, 4, [0; 8])).as_ref() == Some(&state);
        let state = State { lost: 0, ..state };
        let flags = r.byte();
        let flags: [u8; 8] = std::array::from_fn(|k| flags >> k & 1);
        // One flag is none.
        let mut wrong = flags;
        wrong[r.below(8) as usize] = r.within(2, 255) as u8;
        fourth
            && [1, 2].iter().all(|version| {
                let flagged = older(&state, *version, flags);
                State::decode(&flagged).is_none() && read(&flagged).as_ref() == Some(&state) && read(&older(&state, *version, wrong)).is_none()
            })
            && read(&older(&state, 3, [0; 8])).as_ref() == Some(&state)
            && renewed(&state.encode()) == state.encode()
    });
    // Each flag with the least value that is none.
    let second = |k: usize| older(&powered(MOS6569), 2, std::array::from_fn(|n| if n == k { 2 } else { 1 }));
    let two = (0..8).all(|k| read(&second(k)).is_none());
    // The kind of version 2 stays; a version's number wants its length; from 3 on there is no flag.
    let state = State { kind: 7, dma: 0x0F, ..powered(MOS6569) };
    let second = older(&state, 2, [0, 1, 0, 1, 0, 1, 0, 1]);
    let kept = read(&second).as_ref() == Some(&state);
    let third = older(&state, 3, [0; 8]);
    let length = [&second, &third, &older(&state, 1, [0; 8]), &older(&state, 4, [0; 8])]
        .iter()
        .all(|old| read(&old[..old.len() - 1]).is_none() && read(&[&old[..], &[0]].concat()).is_none());
    let places = (0..8).map(flag_at).collect::<Vec<usize>>() == [79, 91, 103, 115, 127, 139, 151, 163];
    let newest = (0..8).all(|k| [3, 4, 5].iter().all(|version| read(&older(&state, *version, std::array::from_fn(|n| u8::from(n == k)))).is_none()))
        && [0, 6].iter().all(|version| read(&older(&state, *version, [0; 8])).is_none());
    brought && two && kept && length && places && newest && [&[][..], &[78, 80, 83], &[78, 80, 83, 1]].iter().all(|bytes| renewed(bytes) == *bytes)
}

fn the_chip_keeps_a_scene() -> bool {
    let mut r = Rng::new(3);
    let mut machine = Machine::new(Memory::new());
    (0..20_000).all(|_| {
        let state = any_state(&mut r, MOS6569);
        machine.load(&state);
        machine.state() == state
    })
}

/// The list of docs/SCOPE.md, with docs/DECISIONS.md, 1.
fn power_up() -> bool {
    let mut expected = State::default();
    expected.cycle = 63;
    expected.raster = 311;
    expected.ba_output_high = true;
    expected.vertical_border = true;
    expected.main_border = true;
    expected.main_remembered = true;
    expected.output_disabled = true;
    expected.top = 0x37;
    expected.bottom = 0xF7;
    expected.flip = 0xFF;
    expected.aec_counter = 3;
    expected.refresh = 0xFF;
    for (k, sprite) in expected.sprites.iter_mut().enumerate() {
        sprite.number = k as u8;
    }
    let state = Machine::new(Memory::new()).state();
    state == expected && accepted(&state)
}

fn charted(bytes: &[u8]) -> String {
    let mut text = Vec::new();
    chart(bytes, &mut text, Machine::new).expect("a list can be written");
    String::from_utf8(text).expect("a chart is plain text")
}

fn the_chart() -> bool {
    let mut bytes = vec![0, 0, 0, 0, 0, 0, 3, 0];
    bytes.extend([0; 15]);
    charted(&bytes) == "steps 3\n1 311 1 1 0 0 0 0\n2 0 1 1 0 0 0 1\n3 0 1 1 0 0 0 1\n"
}

/// Every line of a dump: the declarations, a first tick, later ones, a refusal with ticks before it and without.
fn the_dump() -> bool {
    let dumped = |bytes: &[u8]| {
        let mut text = Vec::new();
        dump(bytes, &mut text, Machine::new).expect("a list can be written");
        String::from_utf8(text).expect("a dump is plain text")
    };
    let head = "$version Nickelplait $end
$timescale 1 us $end
$scope module vic $end
$var wire 7 A cycle $end
$var wire 9 B raster $end
$var wire 1 C ba $end
$var wire 1 D aec $end
$var wire 8 E dma $end
$var wire 3 F rc $end
$var wire 10 G vc $end
$var wire 1 H irq $end
$upscope $end
$enddefinitions $end
";
    // The interrupt is enabled, so the raster interrupt of line 0 pulls the line down.
    let mut run = vec![0, 0, 0, 0, 0, 0, 5, 0, 1, 0x1A, 1, 0, 0];
    run.extend([0; 15]);
    run.extend([7, 4, 0, 0, 0]);
    let ticks = "#0
$dumpvars
b1 A
b100110111 B
1C
1D
b0 E
b0 F
b0 G
1H
$end
#1
b10 A
b0 B
0H
#2
b11 A
$comment refused 8 4 $end
";
    dumped(&run) == format!("{head}{ticks}") && dumped(&[0; 8]) == head && dumped(&[]) == format!("{head}$comment refused 7 0 $end\n") && head.len() == 292
}

/// One file for each reading of docs/DECISIONS.md, 33.
fn faults() -> bool {
    let steps = |records: &[[u8; 5]]| {
        let mut bytes = vec![0, 0, 0, 0, 0, 0, records.len() as u8, 0];
        bytes.extend(records.iter().flatten());
        charted(&bytes)
    };
    let last = |text: String| text.lines().last().unwrap_or_default().to_string();
    let before: &[(&[u8], &str)] = &[
        (&[], "refused 7 0\n"),
        (&[0], "refused 7 0\n"),
        (&[0, 0, 0, 0, 0, 0, 0], "refused 7 0\n"),
        (&[0, 0, 0, 0, 0, 0, 0, 0], "steps 0\n"),
        (&[0, 0, 0, 0, 0, 0, 0, 0, 0], "steps 0\nrefused 9 0\n"),
        (&[0, 0, 0, 0, 0, 0, 1, 0], "steps 1\nrefused 7 0\n"),
        // 16,385 changes are too many; 16,384 are not, but they are not there.
        (&[1, 0x40], "refused 8 0\n"),
        (&[0, 0x40], "refused 7 0\n"),
        // An address is judged once its record is there.
        (&[1, 0, 0, 0x40], "refused 7 0\n"),
        (&[1, 0, 0, 0x40, 1], "refused 8 0\n"),
        (&[1, 0, 0xFF, 0x3F, 1], "refused 7 0\n"),
        (&[0, 0, 1, 0, 0, 0x10, 1], "refused 8 0\n"),
        (&[0, 0, 0, 0, 1, 0, 0, 0x04, 1], "refused 8 0\n"),
    ];
    let refused: &[[u8; 5]] = &[
        [0, 1, 0, 0, 0],
        [1, 0, 0, 1, 0],
        [1, 0, 0, 0, 1],
        [2, 0, 1, 0, 0],
        [3, 0, 0, 0, 2],
        [4, 0, 0, 0, 1],
        [5, 1, 0, 0, 0],
        [7, 4, 0, 0, 0],
        [7, 0, 1, 0, 0],
        [8, 0, 1, 0, 0],
        [8, 0, 0, 1, 0],
        [8, 0, 0, 0, 1],
        [9, 0, 1, 0, 0],
        [9, 0, 0, 1, 0],
        [9, 0, 0, 0, 1],
        [10, 0, 0, 0, 0],
        [255, 0, 0, 0, 0],
    ];
    let taken: &[[u8; 5]] = &[
        [1, 255, 255, 0, 0],
        [2, 255, 0, 0, 0],
        [3, 255, 255, 255, 1],
        [4, 255, 0, 0, 0],
        [5, 0, 0, 0, 0],
        [7, 3, 0, 0, 0],
        [8, 255, 0, 0, 0],
        [9, 255, 0, 0, 0],
    ];
    // The retired kind, whatever its fields are: what came before is charted, what comes after is not looked at, a cut comes first.
    let retired: &[[u8; 5]] = &[[6, 0, 0, 0, 0], [6, 1, 1, 1, 1], [6, 2, 0, 0, 0], [6, 255, 255, 255, 255]];
    let cut = |record: &[u8; 5]| charted(&[&[0, 0, 0, 0, 0, 0, 1, 0], &record[..4]].concat());
    before.iter().all(|(bytes, text)| charted(bytes) == *text)
        && retired.iter().all(|record| steps(&[[0; 5], *record, [10, 0, 0, 0, 0]]) == "steps 3\n1 311 1 1 0 0 0 0\nrefused 10 1\n")
        && retired.iter().all(|record| cut(record) == "steps 1\nrefused 7 0\n")
        && refused.iter().all(|record| last(steps(&[[5, 0, 0, 0, 0], *record])) == "refused 8 1")
        && taken.iter().all(|record| steps(&[*record]) == "steps 1\n")
}

/// docs/SCOPE.md, "Twelve settled by proof", asked of the original.
fn the_twelve() -> bool {
    let mut machine = Machine::new(Memory::new());
    let masks = [63, 54, 55].map(|cycle| mask_at(&mut machine, cycle)) == [0x1C, 0, 0x01];
    let mut tick = |change: &dyn Fn(&mut State)| {
        machine.power_up(MOS6569);
        let mut state = machine.state();
        change(&mut state);
        let bytes = answer_case(&mut machine, &Case { call: TICK, bank: 0, arguments: [0; 4], state });
        assert_eq!(bytes[0], 0, "the tick is taken");
        State::decode(&bytes[AFTER..]).expect("an answer holds a scene")
    };
    let bad_lines = VicTiming::compute_is_badline(0x30, 0, true)
        && !VicTiming::compute_is_badline(0x2F, 7, true)
        && VicTiming::compute_is_badline(0xF7, 7, true)
        && !VicTiming::compute_is_badline(0xF8, 0, true);

    let crunched = tick(&|s| {
        s.cycle = 15;
        s.clear_pending = 1;
        s.sprites[0].base = 3;
        s.sprites[0].mc = 6;
    });
    let ended = tick(&|s| {
        s.cycle = 15;
        s.dma = 1;
        s.sprites[0].base = 60;
        s.sprites[0].mc = 63;
    });
    let bad_at_58 = tick(&|s| {
        s.cycle = 57;
        s.raster = 0x30;
        s.den_latch = true;
        s.rc = 7;
    });
    let idle_at_58 = tick(&|s| {
        s.cycle = 57;
        s.displaying = true;
        s.rc = 7;
    });

    machine.power_up(MOS6569);
    let mut state = machine.state();
    state.pending = Some(5);
    let bytes = answer_case(&mut machine, &Case { call: LATE_BYTE, bank: 0, arguments: [0xA7, 0, 0, 0], state });
    let late = State::decode(&bytes[AFTER..]).expect("an answer holds a scene");

    bad_lines
        && masks
        && crunched.sprites[0].base == 7
        && (ended.sprites[0].base, ended.dma) == (63, 0)
        && (late.matrix.0[5], late.pending) == (0x07FF, None)
        && (bad_at_58.rc, bad_at_58.displaying) == (0, true)
        && (idle_at_58.rc, idle_at_58.displaying) == (7, false)
}

/// docs/SCOPE.md: the request lasts from three cycles before the pointer slot to the data slot.
fn the_mask() -> bool {
    let mut machine = Machine::new(Memory::new());
    (0..=130).chain([0xFFFF]).all(|cycle: u16| {
        let expected = (0..8u16).filter(|n| (55..=59).any(|first| (first + 2 * n - 1) % 63 + 1 == cycle)).fold(0, |mask, n| mask | 1 << n);
        mask_at(&mut machine, cycle) == expected
    })
}

/// docs/DIFFERENCES.md, 13 to 15 and 17 to 22, each on its smallest input. No replay case can hold most of these: the original is
/// asked without acceptance.
fn the_originals_own() -> bool {
    let found = [
        (13, VicII::new().forced_badline_c_access_clock == -40),
        (14, panics(|| _ = VicTiming::compute_is_badline(512, 0, true))),
        (15, {
            let mut timing = VicTiming { raster_line: 312, ..VicTiming::new() };
            !timing.advance_line() && timing.raster_line == 313
        }),
        (17, panics(|| VicTiming { cycle: 65535, ..VicTiming::new() }.tick())),
        (18, {
            let mut chip = VicII::new();
            chip.sprites.sprites[0].mc = 256;
            chip.sprites.sprites[0].advance_mcbase(true, false);
            chip.sprites.sprites[0].mc_base == 256
        }),
        (19, {
            panics(|| {
                let mut chip = VicII::new();
                chip.current_clock = i64::MAX - 1;
                chip.tick_sequencer(&mut Memory::new(), 0);
            })
        }),
        (20, {
            let mut chip = VicII::new();
            chip.irq.flags = 1;
            chip.regs.write(0x19, 1, &mut chip.irq);
            chip.sprites.write_y_expand(1, 20, &mut chip.regs);
            chip.irq.flags == 0 && chip.regs.sprite_y_exp == 1
        }),
        (21, {
            let mut memory = Memory::new();
            memory.ram[0x2000] = 0x77;
            let mut chip = displaying();
            chip.vc = 1024;
            chip.regs.ctrl1 = 0x20;
            chip.previous_graphics_mode = GraphicsMode::from_code(2);
            chip.tick_sequencer(&mut memory, 0);
            chip.graphics_data_fetched == 0x77
        }),
        (22, {
            let mut chip = displaying();
            chip.vmli = 129;
            chip.forced_badline_c_access_clock = chip.current_clock;
            chip.matrix_line[1] = 0x0802;
            chip.matrix_line[8] = 0x0084;
            chip.tick_sequencer(&mut Memory::new(), 0);
            chip.char_data_carry == 0x0802
        }),
    ];
    for (number, _) in found.iter().filter(|(_, shown)| !shown) {
        println!("       difference {number} is not shown");
    }
    found.iter().all(|(_, shown)| *shown)
}

/// docs/DIFFERENCES.md, 2. On line 0x30 the latch is DEN, or was set before in the line; on every other line the stand-in changes
/// nothing; and the original alone takes DEN in cycle 1 only.
fn the_late_den() -> bool {
    let mut r = Rng::new(4);
    let mut beside = Machine::judging(Memory::new(), false);
    let mut alone = Machine::judging(Memory::new(), true);
    let (mut late, mut apart) = (0, 0);
    let sound = (0..100_000).all(|number: u32| {
        let (mut state, _) = accepted_state(&mut r, MOS6569, 1 + (number % 63) as u16);
        state.clock = state.clock.min(CLOCK_LIMIT - 2);
        if number % 2 == 0 {
            state.raster = r.pick(&[0x2F, 0x30, 0x30, 0x30]);
        }
        let ticked = |machine: &mut Machine| {
            machine.load(&state);
            machine.tick().expect("the tick is taken");
            machine.state()
        };
        let (judge, original) = (ticked(&mut beside), ticked(&mut alone));
        let begins = state.cycle == 63;
        let line = if begins { state.raster + 1 } else { state.raster };
        let den = state.ctrl1 & 0x10 != 0;
        let wraps = state.cycle == 1 && state.frame_flag;
        let latch = if line == 0x30 { den || (state.den_latch && !begins) } else { state.den_latch };
        let old = if line == 0x30 && begins { den } else { state.den_latch };
        late += u64::from(is_late(&state));
        apart += u64::from(judge != original);
        judge.den_latch == (latch && !wraps) && original.den_latch == (old && !wraps) && (judge == original || is_late(&state))
    });
    sound && beside.late() == late && alone.late() == late && 0 < apart && apart <= late
}

/// docs/DIFFERENCES.md, 28: what the original makes of a mask and flags that are apart, which no state says any more; and that it is told
/// where a call leaves them so. From a state the two agree, and go on so.
fn the_two_records() -> bool {
    let mut memory = Memory::new();
    (memory.ram[0x3F9], memory.ram[64], memory.ram[0x3FFF]) = (1, 0xAB, 0x5A);
    // One tick of the original from a cycle, with this mask and these flags: byte 2 and MC of sprite 1, the mask, the flags, and how often
    // the two were apart.
    let tick = |cycle: u16, mask: u8, flags: u8, base: u8| {
        let mut machine = Machine::new(memory.clone());
        let mut state = State { cycle, dma: mask, ..machine.state() };
        (state.sprites[0].base, state.sprites[0].mc) = (base, base);
        machine.load(&state);
        machine.set_flags(flags);
        machine.tick().expect("the tick is taken");
        let (after, flags, apart) = (machine.state(), machine.flags(), machine.records().apart);
        (after.sprites[1].bytes[2], after.sprites[1].mc, after.dma, flags, apart)
    };
    // Cycle 60, sprite 1's pointer slot, without AEC: both, the mask alone, the flag alone, neither.
    let slots = [(2, 2), (2, 0), (0, 2), (0, 0)].map(|(mask, flags)| tick(59, mask, flags, 0))
        == [(0xAB, 1, 2, 2, 0), (0xFF, 0, 2, 0, 1), (0xFF, 0, 0, 2, 1), (0xFF, 0, 0, 0, 0)];
    // Cycle 16, base 5: the mask alone is lost, and so the two agree again; the flag alone stays.
    let steps = [(1, 1), (1, 0), (0, 1)].map(|(mask, flags)| tick(15, mask, flags, 5)) == [(0, 0, 1, 1, 0), (0, 0, 0, 0, 0), (0, 0, 0, 1, 1)];
    // Base 63: both are lost, whatever they were.
    let ends = [(1, 1), (1, 0), (0, 1), (0, 0)].map(|(mask, flags)| tick(15, mask, flags, 63)) == [(0, 0, 0, 0, 0); 4];

    // Every mask, in every cycle: the state's mask is the flags' too, before the tick and after it.
    let mut r = Rng::new(6);
    let mut machine = Machine::new(memory);
    let agree = (0..100_000).all(|number: u32| {
        let (mut state, _) = accepted_state(&mut r, MOS6569, 1 + (number % 63) as u16);
        state.clock = state.clock.min(CLOCK_LIMIT - 2);
        state.dma = (number / 63) as u8;
        machine.load(&state);
        let before = machine.flags() == state.dma;
        machine.tick().expect("the tick is taken");
        before && machine.flags() == machine.state().dma
    });
    slots && steps && ends && agree && machine.records().apart == 0 && machine.records().looked > 100_000
}

/// 02 (vi), worked out by hand, on the original with our calls, and on the model as each kind.
fn the_control_writes() -> bool {
    control_writes(&mut Machine::new(Memory::new()), MOS6569)
        && control_writes(&mut Model::new(Memory::new(), MOS6569), MOS6569)
        && control_writes(&mut Model::new(Memory::new(), MOS6567R8), MOS6567R8)
        && control_writes(&mut Model::new(Memory::new(), UNKNOWN[0]), UNKNOWN[0])
        && line_0(&mut Machine::new(Memory::new()), 0x37)
        && line_0(&mut Model::new(Memory::new(), MOS6569), 0x37)
        && line_0(&mut Model::new(Memory::new(), MOS6567R8), 0x06)
}

/// A state from which a tick gets to this cycle: the matrix at 0x0400, the characters at 0x1000, every MC and MC base 9, and the pointers
/// that `pictured` has.
fn before(kind: u8, cycle: u16) -> State {
    let last = column(kind).last_cycle;
    let mut s = State { cycle: if cycle == 1 { last } else { cycle - 1 }, raster: 100, memory_pointers: 0x14, ..powered(kind) };
    for (k, sprite) in s.sprites.iter_mut().enumerate() {
        (sprite.pointer, sprite.mc, sprite.base) = (0x80 + k as u8, 9, 9);
    }
    s
}

/// Pointers of a matrix at 0x0400: sprite k's data begins at 0x2000 + 0x40 * k.
fn pictured() -> Memory {
    let mut memory = Memory::new();
    (0..8).for_each(|k| memory.ram[0x7F8 + k] = 0x80 + k as u8);
    memory
}

/// The reads of one tick.
fn read_by(chip: &mut dyn Chip, state: &State) -> Reads {
    chip.load(state);
    chip.tick().expect("the tick is taken");
    chip.reads()
}

/// AEC as the last tick left it, and a bus that the CPU has lost.
fn aec_low(s: &mut State) {
    (s.ba_low, s.aec_low, s.aec_counter) = (true, true, -1);
}

/// A line of text in row 2, with the first character next, whose code is 0x23.
fn text_line(s: &mut State) {
    (s.displaying, s.output_disabled, s.vc, s.rc) = (true, false, 0x28, 2);
    s.matrix.0[0] = 0x0123;
}

/// The same on a bad line, with the accesses on.
fn text_bad_line(s: &mut State) {
    text_line(s);
    (s.raster, s.ctrl1, s.den_latch, s.bad_line, s.accessing) = (0x33, 0x13, true, true, true);
}

type Change = fn(&mut State);

/// Ticks into a cycle of the 6569, from the state above with a change, and what each reads: the table of 02 (viii), worked out by hand.
const READ: &[(u16, Change, &[(Reason, u16)])] = &[
    // Pointer slots: with DMA the byte whatever AEC is, but for sprite 0's; without it only with AEC low.
    (60, |_| {}, &[(Reason::Pointer, 0x07F9)]),
    (60, aec_low, &[(Reason::Pointer, 0x07F9), (Reason::Idle, 0x3FFF)]),
    (60, |s| s.dma = 2, &[(Reason::Pointer, 0x07F9), (Reason::Sprite, 0x2049)]),
    (62, |s| (s.dma, s.sprites[2].mc) = (4, 63), &[(Reason::Pointer, 0x07FA), (Reason::Sprite, 0x20BF)]),
    (9, |s| (s.dma, s.memory_pointers) = (0x7F, 0xF0), &[(Reason::Pointer, 0x3FFF)]),
    (58, |_| {}, &[(Reason::Pointer, 0x07F8)]),
    (58, |s| s.dma = 1, &[(Reason::Pointer, 0x07F8)]),
    (58, |s| (s.dma, s.aec_counter) = (1, 0), &[(Reason::Pointer, 0x07F8), (Reason::Sprite, 0x2009)]),
    (58, |s| (s.dma, s.aec_counter) = (2, 0), &[(Reason::Pointer, 0x07F8), (Reason::Idle, 0x3FFF)]),
    // Data slots: byte 1 and then byte 0, and the pointer that the sprite has.
    (59, |_| {}, &[(Reason::Idle, 0x3FFF)]),
    (59, aec_low, &[(Reason::Idle, 0x3FFF), (Reason::Idle, 0x3FFF)]),
    (59, |s| s.dma = 1, &[(Reason::Sprite, 0x2009), (Reason::Sprite, 0x200A)]),
    (10, |s| (s.dma, s.sprites[7].mc, s.sprites[7].pointer) = (0x80, 63, 0xFF), &[(Reason::Sprite, 0x3FFF), (Reason::Sprite, 0x3FC0)]),
    // The AEC flag of the last tick in 3 and on, this tick's in 1 and 2: without DMA the arbitration takes it away.
    (1, aec_low, &[(Reason::Pointer, 0x07FB)]),
    (2, aec_low, &[(Reason::Idle, 0x3FFF)]),
    (3, aec_low, &[(Reason::Pointer, 0x07FC), (Reason::Idle, 0x3FFF)]),
    (1, |s| (s.dma, s.aec_counter) = (0x10, 0), &[(Reason::Pointer, 0x07FB), (Reason::Idle, 0x3FFF)]),
    (3, |s| (s.dma, s.aec_counter) = (0x20, 0), &[(Reason::Pointer, 0x07FC)]),
    // Refresh, whatever AEC is, and the counter below 0x3F00.
    (11, aec_low, &[(Reason::Refresh, 0x3FFF)]),
    (12, |s| s.refresh = 0, &[(Reason::Refresh, 0x3F00)]),
    (13, |s| (s.refresh, s.previous_mode) = (0x80, 4), &[(Reason::Refresh, 0x3F80)]),
    (14, |s| s.dma = 0xFF, &[(Reason::Refresh, 0x3FFF)]),
    (15, |s| s.refresh = 0x42, &[(Reason::Refresh, 0x3F42)]),
    // The first matrix access, from the line's own VC, and one that waits for the CPU's byte.
    (15, |s| (text_bad_line(s), aec_low(s), s.vc = 0x155).0, &[(Reason::Refresh, 0x3FFF), (Reason::Matrix, 0x0555)]),
    (15, text_bad_line, &[(Reason::Refresh, 0x3FFF)]),
    (15, |s| (text_line(s), aec_low(s), s.accessing = true).0, &[(Reason::Refresh, 0x3FFF)]),
    // Display, and with it the next matrix access.
    (20, text_line, &[(Reason::Graphics, 0x111A)]),
    (20, |s| (text_bad_line(s), aec_low(s)).0, &[(Reason::Graphics, 0x111A), (Reason::Matrix, 0x0429)]),
    (20, text_bad_line, &[(Reason::Graphics, 0x111A)]),
    (54, |s| (text_bad_line(s), aec_low(s), s.vc = 1023).0, &[(Reason::Graphics, 0x111A), (Reason::Matrix, 0x0400)]),
    (55, |s| (text_bad_line(s), aec_low(s)).0, &[(Reason::Graphics, 0x111A)]),
    // A bitmap, and the first tick after BMM fell.
    (20, |s| (text_line(s), s.ctrl1 = 0x20, s.previous_mode = 2).0, &[(Reason::Graphics, 0x0142)]),
    (20, |s| (text_line(s), s.previous_mode = 2, s.memory_pointers = 0x1A).0, &[(Reason::Graphics, 0x2142)]),
    // Idle: the state, by ECM, and a transition that is pending, before the forced clock's cycle and in it.
    (20, |_| {}, &[(Reason::Idle, 0x3FFF)]),
    (55, |s| s.previous_mode = 4, &[(Reason::Idle, 0x39FF)]),
    (20, |s| (text_line(s), s.entering = true).0, &[(Reason::Idle, 0x3FFF)]),
    (18, |s| (text_line(s), s.entering = true, s.clock = 98, s.forced_clock = 100).0, &[(Reason::Idle, 0x38FF)]),
    (17, |s| (text_line(s), s.entering = true, s.clock = 98, s.forced_clock = 100).0, &[(Reason::Idle, 0x3FFF)]),
    // Nothing to do, whatever there was to do before.
    (56, |s| (text_bad_line(s), aec_low(s), s.dma = 0xFF).0, &[(Reason::Idle, 0x3FFF)]),
    (57, |s| s.previous_mode = 4, &[(Reason::Idle, 0x3FFF)]),
];

/// The list above, on the original and on the model.
fn the_reads() -> bool {
    let mut chips: [Box<dyn Chip>; 2] = [Box::new(Machine::new(pictured())), Box::new(Model::new(pictured(), MOS6569))];
    let mut sound = true;
    for (number, (cycle, change, reads)) in READ.iter().enumerate() {
        let mut state = before(MOS6569, *cycle);
        change(&mut state);
        for chip in &mut chips {
            let found = read_by(chip.as_mut(), &state);
            if found != Reads::of(reads) {
                println!("       read {number}, into cycle {cycle}: {found:?}");
                sound = false;
            }
        }
    }
    sound
}

/// Every cycle, with anything in it: the trace is the table's. It is told where it is not: here sprite 1 has a mask and no flag, which no
/// state says, and the original reads its pointer alone.
fn the_trace() -> bool {
    let mut r = Rng::new(7);
    let mut machine = Machine::new(pictured());
    let sound = (0..100_000).all(|number: u32| {
        let (mut state, _) = accepted_state(&mut r, MOS6569, 1 + (number % 63) as u16);
        state.clock = state.clock.min(CLOCK_LIMIT - 2);
        _ = read_by(&mut machine, &state);
        machine.records().traced == u64::from(number) + 1 && machine.records().other == 0
    });
    machine.load(&State { dma: 2, ..before(MOS6569, 60) });
    machine.set_flags(0);
    machine.tick().expect("the tick is taken");
    sound && machine.records().other == 1
}

/// The six bytes of an answer, which only a tick that is taken has; and a run file's text, with every word, a refusal and no tick.
fn the_told_reads() -> bool {
    let mut machine = Machine::new(pictured());
    let mut told = |call: u8, bank: u8, state: State| -> (u8, [u8; 6]) {
        let bytes = answer_case(&mut machine, &Case { call, bank, arguments: [0; 4], state });
        (bytes[0], bytes[READS..AFTER].try_into().expect("six bytes"))
    };
    let mut state = before(MOS6569, 20);
    text_bad_line(&mut state);
    aec_low(&mut state);
    let taken = told(TICK, 0, state.clone()) == (0, [4, 0x1A, 0x11, 3, 0x29, 0x04]) && told(TICK, 0, before(MOS6569, 58)) == (0, [1, 0xF8, 0x07, 0, 0, 0]);
    let refused = told(TICK, 4, state.clone()) == (2, [0; 6])
        && told(TICK, 0, State { raster: 312, ..state.clone() }) == (3, [0; 6])
        && told(TICK, 0, State { clock: CLOCK_LIMIT, ..state.clone() }) == (4, [0; 6]);
    let others = OTHERS.iter().all(|call| told(*call, 0, state.clone()) == (0, [0; 6])) && told(TICK, 0, before(MOS6569, 11)) == (0, [6, 0xFF, 0x3F, 0, 0, 0]);

    let text = |bytes: &[u8]| {
        let mut text = Vec::new();
        bus(bytes, &mut text, Machine::new).expect("a list can be written");
        String::from_utf8(text).expect("the text is plain")
    };
    // Matrix at 0x0400 and sprite 4 on; its DMA begins on line 0, in cycle 55. The run ends with a step that is none.
    let mut run = vec![0, 0, 0, 0, 0, 0, 70, 0, 1, 0x18, 0x14, 0, 0, 1, 0x15, 0x10, 0, 0];
    run.extend([0; 5 * 67]);
    run.extend([7, 4, 0, 0, 0]);
    let lines: Vec<String> = text(&run).lines().map(str::to_string).collect();
    let at = |n: usize| lines.get(n).map_or("", String::as_str);
    let shown = lines.len() == 69
        && [at(0), at(1), at(2), at(11), at(15), at(16), at(57)]
            == ["steps 70", "1 311 0 pointer 07FB", "2 0 0 idle 3FFF", "11 0 0 refresh 3FFF", "15 0 0 refresh 3FFB", "16 0 0 idle 3FFF", "57 0 0 idle 3FFF"]
        && [at(64), at(65), at(66), at(67), at(68)]
            == ["1 1 0 pointer 07FB", "2 1 0 idle 3FFF", "3 1 1 pointer 07FC sprite 0000", "4 1 2 sprite 0001 sprite 0002", "refused 8 69"];
    taken && refused && others && shown && text(&[]) == "refused 7 0\n" && text(&[0; 8]) == "steps 0\n"
}

/// 02 (xi): counted by hand. A bad line takes 15 to 54, after three cycles of warning; with sprite 0 on a 6569 it is not given back
/// before 60. A line that begins with AEC low has lost a cycle in its first one.
fn the_lost_cycles() -> bool {
    let mut chips: [Box<dyn Chip>; 3] =
        [Box::new(Machine::new(Memory::new())), Box::new(Model::new(Memory::new(), MOS6569)), Box::new(Model::new(Memory::new(), MOS6567R8))];
    chips.iter_mut().all(|chip| {
        let kind = chip.state().kind;
        let last = column(kind).last_cycle;
        // The number after so many ticks from a state.
        let mut lost = |cycle: u16, ticks: u16, change: &dyn Fn(&mut State)| {
            let mut state = State { cycle, ..powered(kind) };
            change(&mut state);
            chip.load(&state);
            (0..ticks).for_each(|_| chip.tick().expect("the tick is taken"));
            assert_eq!(chip.cycles_lost(), chip.state().lost);
            chip.cycles_lost()
        };
        let bad = |s: &mut State| (s.raster, s.ctrl1, s.den_latch) = (0x32, 0x1B, true);
        let line = [14, 15, 16, 54, 55, last].map(|cycle| lost(last, cycle, &bad)) == [0, 1, 2, 40, 40, 40];
        let with_sprite = |s: &mut State| (bad(s), s.dma = 1).0;
        // On the 6567R8 BA rises in 55, and AEC falls again in 59, for two cycles.
        let sprite = [54, 55, 59, 60].map(|cycle| lost(last, cycle, &with_sprite)) == if kind == MOS6569 { [40, 41, 45, 45] } else { [40, 40, 41, 42] };
        // The next line begins at 0, before its first tick is counted: here sprite 3 has the bus there.
        let begins = |s: &mut State| (s.dma, s.aec_counter, s.lost) = (0x08, -1, 9);
        let next = [0, 1, 2, 3].map(|ticks| lost(last, ticks, &begins)) == if kind == MOS6569 { [9, 1, 2, 2] } else { [9, 1, 1, 1] };
        // A state's own number goes on, and is not looked at where its line ends.
        let on = |s: &mut State| (bad(s), s.raster = 0x33, s.lost = 7, s.aec_counter = -1).0;
        let given = [0, 1, 2].map(|ticks| lost(20, ticks, &on)) == [7, 8, 9];
        // BA low is not AEC low, and the flag of before does not count.
        let warned = |s: &mut State| (bad(s), s.raster = 0x33, s.aec_low = true).0;
        let warning = [1, 2, 3, 4].map(|ticks| lost(20, ticks, &warned)) == [0, 0, 0, 1];
        // At most its cycle, in every cycle.
        let mut taken = |cycle: u16, lost: u8| {
            chip.load(&State { cycle, lost, ..powered(kind) });
            chip.tick().err()
        };
        let limits = (1..=last).all(|cycle| (taken(cycle, cycle as u8), taken(cycle, cycle as u8 + 1), taken(cycle, 255)) == (None, Some(3), Some(3)));
        // The question takes any state.
        let case = Case { call: CYCLES_LOST, bank: 9, arguments: [0; 4], state: State { cycle: 1, lost: 200, ..powered(kind) } };
        let asked = answer_case(chip.as_mut(), &case)[..3] == [0, 200, 0];
        line && sprite && next && given && warning && limits && asked
    })
}

/// 02 (xiv): five less in every line, and 0xFF in cycle 2 where the frame flag is set, not where the raster is 0. The original sets it; in
/// its stand-in it is one less after each access.
fn the_refresh() -> bool {
    let mut chips: [Box<dyn Chip>; 3] =
        [Box::new(Machine::new(Memory::new())), Box::new(Model::new(Memory::new(), MOS6569)), Box::new(Model::new(Memory::new(), MOS6567R8))];
    chips.iter_mut().all(|chip| {
        let kind = chip.state().kind;
        let last = column(kind).last_cycle;
        // The counter after so many ticks from a state, and the address of the refresh read in the last of them.
        let mut after = |cycle: u16, ticks: u16, change: &dyn Fn(&mut State)| {
            let mut state = State { raster: 100, ..powered(kind) };
            state.cycle = cycle;
            change(&mut state);
            chip.load(&state);
            (0..ticks).for_each(|_| chip.tick().expect("the tick is taken"));
            (chip.state().refresh, chip.reads().iter().find(|read| read.0 == Reason::Refresh).map(|read| read.1))
        };
        let line = [10, 11, 12, 13, 14, 15, 16, last].map(|cycle| after(last, cycle, &|s| s.refresh = 3))
            == [(3, None), (2, Some(0x3F03)), (1, Some(0x3F02)), (0, Some(0x3F01)), (0xFF, Some(0x3F00)), (0xFE, Some(0x3FFF)), (0xFE, None), (0xFE, None)];
        // The frame flag, on any line; without it raster 0 changes nothing.
        let flag = |s: &mut State| (s.frame_flag, s.refresh) = (true, 7);
        let frame = [(last, 1), (last, 2), (1, 1), (2, 1)].map(|(cycle, ticks)| after(cycle, ticks, &flag).0) == [7, 0xFF, 0xFF, 7];
        let zero = after(1, 1, &|s| (s.raster, s.refresh) = (0, 7)).0 == 7;
        // The last line ends the frame by itself.
        let end = |s: &mut State| (s.raster, s.refresh) = (column(kind).last_line, 7);
        let ends = [1, 2, 15].map(|ticks| after(last, ticks, &end).0) == [7, 0xFF, 0xFA];
        line && frame && zero && ends
    })
}

/// 02 (xii): what a line is refused by, each before the next, with the state as it was; that it is as many ticks as it has cycles; and what
/// a run of ticks tells and keeps.
fn the_lines() -> bool {
    let memory = pictured;
    let mut chips: [Box<dyn Chip>; 3] = [Box::new(Machine::new(memory())), Box::new(Model::new(memory(), MOS6569)), Box::new(Model::new(memory(), MOS6567R8))];
    chips.iter_mut().enumerate().all(|(number, chip)| {
        let kind = chip.state().kind;
        let last = column(kind).last_cycle;
        let end = before(kind, 1);
        let mut told = |call: u8, bank: u8, ticks: u16, state: &State| -> (u8, State, [u8; 6]) {
            let [a, b] = ticks.to_le_bytes();
            let bytes = answer_case(chip.as_mut(), &Case { call, bank, arguments: [a, b, 9, 9], state: state.clone() });
            let after = State::decode(&bytes[AFTER..]).expect("an answer has a scene");
            (bytes[0], after, bytes[READS..AFTER].try_into().expect("six bytes"))
        };
        let mut refused = |bank: u8, number: u8, change: &dyn Fn(&mut State)| {
            let mut state = end.clone();
            change(&mut state);
            told(LINE, bank, 0, &state) == (number, state, [0; 6])
        };
        let middle = |s: &mut State| s.cycle = last - 1;
        let limit = CLOCK_LIMIT - 2 * i64::from(last);
        let order = refused(4, 2, &|s| (middle(s), s.vc = 1024, s.clock = CLOCK_LIMIT).0)
            && refused(0, 3, &|s| (middle(s), s.vc = 1024, s.clock = CLOCK_LIMIT).0)
            && refused(0, 11, &|s| (middle(s), s.clock = CLOCK_LIMIT).0)
            && refused(0, 11, &|s| s.cycle = 1)
            && [limit + 1, limit + 2, CLOCK_LIMIT - 2, CLOCK_LIMIT].iter().all(|clock| refused(0, 4, &|s| s.clock = *clock));
        // The original has no unknown kind.
        let unknown = number == 0
            || (refused(0, 12, &|s| (s.kind, s.cycle, s.vc) = (UNKNOWN[0], 1, 1024)) && refused(4, 2, &|s| (s.kind, s.cycle, s.vc) = (UNKNOWN[0], 1, 1024)));
        // The last clocks that take a line, an odd one too.
        let taken = [0, limit - 1, limit].iter().all(|clock| {
            let state = State { clock: *clock, ..end.clone() };
            let (refusal, after, reads) = told(LINE, 0, 0, &state);
            let mut ticked = state;
            (0..last).for_each(|_| ticked = told(TICK, 0, 0, &ticked).1);
            (refusal, after.cycle, after.raster, after.clock, reads) == (0, last, 101, clock + 2 * i64::from(last), [0; 6]) && after == ticked
        });
        // No tick takes every state. A run tells the reads of its last tick, here sprite 1's pointer slot, and keeps what was done before the
        // clock ended it.
        let wild = State { vc: 1024, clock: -1, ..end.clone() };
        let none = told(TICKS, 9, 0, &wild) == (0, wild, [0; 6]);
        let pointer = column(kind).first_pointer + 2;
        let (refusal, after, reads) = told(TICKS, 0, pointer, &end);
        let some = (refusal, after.cycle, reads) == (0, pointer, [1, 0xF9, 0x07, 0, 0, 0]);
        let (refusal, after, reads) = told(TICKS, 0, 300, &State { clock: CLOCK_LIMIT - 5, ..end.clone() });
        let ended = (refusal, after.cycle, after.clock, reads) == (4, 2, CLOCK_LIMIT - 1, [0; 6]);
        let many = told(TICKS, 0, 256 + last, &end).1.clock == end.clock + 2 * (256 + i64::from(last));
        order && unknown && taken && none && some && ended && many
    })
}

/// Its own slots, and four cycles that have nothing to do: 10 and 56 to 58.
fn the_reads_of_the_6567r8() -> bool {
    let mut model = Model::new(pictured(), MOS6567R8);
    let mut read = |cycle: u16, change: Change| {
        let mut state = before(MOS6567R8, cycle);
        change(&mut state);
        read_by(&mut model, &state)
    };
    let idle = Reads::of(&[(Reason::Idle, 0x3FFF)]);
    // All sprites fetch: the slots are in pairs, and sprite 0's first byte wants AEC.
    let pairs = (0..8u16).all(|k| {
        let (pointer, data) = ([59, 61, 63, 65, 2, 4, 6, 8][usize::from(k)], [60, 62, 64, 1, 3, 5, 7, 9][usize::from(k)]);
        let at = 0x2009 + 0x40 * k;
        let on: Change = |s| (s.dma, s.aec_counter) = (0xFF, 0);
        read(pointer, on) == Reads::of(&[(Reason::Pointer, 0x07F8 + k), (Reason::Sprite, at)])
            && read(data, on) == Reads::of(&[(Reason::Sprite, at), (Reason::Sprite, at + 1)])
            && read(pointer, |_| {}) == Reads::of(&[(Reason::Pointer, 0x07F8 + k)])
            && read(data, |_| {}) == idle
    });
    let refused = read(59, |s| s.dma = 1) == Reads::of(&[(Reason::Pointer, 0x07F8)]);
    let holes = [10, 56, 57, 58].iter().all(|cycle| read(*cycle, aec_low) == idle && read(*cycle, |s| s.dma = 0xFF) == idle);
    let refresh = (11..=15).all(|cycle| read(cycle, aec_low) == Reads::of(&[(Reason::Refresh, 0x3FFF)]));
    let bad: Change = |s| (text_bad_line(s), aec_low(s)).0;
    let rows = read(15, bad) == Reads::of(&[(Reason::Refresh, 0x3FFF), (Reason::Matrix, 0x0428)])
        && read(16, bad) == Reads::of(&[(Reason::Graphics, 0x111A), (Reason::Matrix, 0x0429)])
        && read(55, bad) == Reads::of(&[(Reason::Graphics, 0x111A)]);
    pairs && refused && holes && refresh && rows
}

/// Between two ticks, on line 100. The compare line is 356 first, 100 but for its bit 8.
fn control_writes(chip: &mut dyn Chip, kind: u8) -> bool {
    let start = State { cycle: 20, raster: 100, compare: 356, irq_enable: 1, ..powered(kind) };
    chip.load(&start);
    chip.write_control_1(0x1B);
    let raised = State { ctrl1: 0x1B, compare: 100, raster_match: true, irq_flags: 0x81, irq_line: true, top: 0x33, bottom: 0xFB, ..start.clone() };
    let raises = chip.state() == raised;
    // Equal and matched: acknowledged, it stays so.
    chip.write(0x19, 1);
    let quiet = State { irq_flags: 0, irq_line: false, ..raised.clone() };
    chip.write_control_1(0x1B);
    let stays = chip.state() == quiet;
    chip.write_control_1(0x9B);
    let clears = chip.state() == State { ctrl1: 0x9B, compare: 356, raster_match: false, ..quiet.clone() };
    chip.write_control_1(0x1B);
    let twice = chip.state() == raised;
    // Without its mask a source is latched all the same.
    chip.load(&State { irq_enable: 0x0E, ..start.clone() });
    chip.write_control_1(0x10);
    let masked = (chip.state().irq_flags, chip.state().irq_line, chip.state().raster_match) == (1, false, true);

    // Nothing above bit 8 stays, and a line that no compare line has is never met.
    chip.load(&State { raster: 0x164, compare: 0xFE64, ..start.clone() });
    chip.write_control_1(0x80);
    let ninth = (chip.state().compare, chip.state().raster_match) == (0x164, true);
    chip.load(&State { raster: 0xFE64, compare: 0xFE64, raster_match: true, ..start.clone() });
    chip.write_control_1(0);
    let above = (chip.state().compare, chip.state().raster_match, chip.state().irq_flags) == (0x064, false, 0);

    // The mode's bits, by each from ctrl1 0x1F and ctrl2 0xC8: changed, changed back; and the other bits, which are none.
    let calm = State { raster: 7, ctrl1: 0x1F, ctrl2: 0xC8, top: 0x33, bottom: 0xFB, compare: 100, ..start.clone() };
    let mut changing = |values: &[u8], second: bool, flag: bool| {
        chip.load(&State { mode_changing: flag, ..calm.clone() });
        for value in values {
            if second {
                chip.write_control_2(*value);
            } else {
                chip.write_control_1(*value);
            }
        }
        chip.state()
    };
    let flags = [0x5F, 0x3F, 0x0F, 0x17, 0x1E, 0x9F, 0x1F].map(|value| changing(&[value], false, false).mode_changing);
    let modes = flags == [true, true, false, false, false, false, false]
        && changing(&[0x3F, 0x1F], false, false) == State { mode_changing: true, ..calm.clone() }
        && changing(&[0x1F], false, true) == State { mode_changing: true, ..calm.clone() }
        && changing(&[0xD8], true, false) == State { ctrl2: 0xD8, mode_changing: true, ..calm.clone() }
        && changing(&[0xD8, 0xC8], true, false) == State { mode_changing: true, ..calm.clone() }
        && changing(&[0x27], true, false) == State { ctrl2: 0x27, ..calm.clone() }
        && changing(&[0xC0], true, true) == State { ctrl2: 0xC0, mode_changing: true, ..calm.clone() }
        && changing(&[0x97], false, false) == State { ctrl1: 0x97, compare: 356, top: 0x37, bottom: 0xF7, ..calm.clone() };

    // The ordinary write has none of it.
    chip.load(&start);
    for address in [0x11, 0x16, 0x51, 0xD6] {
        chip.write(address, 0xFF);
    }
    let ordinary = chip.state() == start;

    // A bad line waits for the tick.
    chip.load(&State { raster: 0x33, den_latch: true, ctrl1: 0x10, ..start.clone() });
    chip.write_control_1(0x13);
    let before = (chip.state().bad_line, chip.state().rising_edge, chip.state().displaying, chip.state().yscroll);
    let ticked = chip.tick().is_ok();
    let after = (chip.state().bad_line, chip.state().rising_edge, chip.state().displaying, chip.state().yscroll);
    // No tick takes an unknown kind.
    let waits = before == (false, false, false, 0) && if ticked { after == (true, true, true, 3) } else { after == before && kind > MOS6567R8 };
    raises && stays && clears && twice && masked && ninth && above && modes && ordinary && waits
}

/// Around a frame's end. The last line is compared while it is there, also where cycle 1 has ended the frame; `low` is its low byte.
fn line_0(chip: &mut dyn Chip, low: u8) -> bool {
    fn told(chip: &mut dyn Chip) -> (u16, bool, u8) {
        (chip.state().raster, chip.state().raster_match, chip.state().irq_flags)
    }
    let last = chip.state().raster;
    chip.write(0x12, low);
    let placed = told(chip) == (last, false, 0);
    chip.tick().expect("the tick is taken");
    let ends = chip.state().cycle == 1 && chip.state().frame_flag && told(chip) == (last, false, 0);
    chip.write_control_1(0x80);
    let met = told(chip) == (last, true, 1);
    chip.write(0x19, 1);
    chip.write(0x12, 0);
    chip.write_control_1(0);
    let left = told(chip) == (last, false, 0);
    // Cycle 2 raises and leaves no match: a write on line 0 raises once more, and then there is one.
    chip.tick().expect("the tick is taken");
    let begins = told(chip) == (0, false, 1);
    chip.write(0x19, 1);
    chip.write_control_1(0);
    let again = told(chip) == (0, true, 1);
    chip.write(0x19, 1);
    chip.write_control_1(0);
    placed && ends && met && left && begins && again && told(chip) == (0, true, 0)
}

/// In the middle of a line that is displayed, row 0, far from any forced bad line.
fn displaying() -> VicII {
    let mut chip = VicII::new();
    chip.timing.cycle = 19;
    chip.timing.raster_line = 0x33;
    chip.current_clock = 1000;
    chip.display_state = DisplayState::Display;
    chip.border.char_data_output_disabled = false;
    chip
}

/// A chip of a kind at power-up but for its cycle and some changes, ticked so often, with 0x5A at the idle address.
fn ticked(kind: u8, cycle: u16, ticks: u16, change: impl Fn(&mut State)) -> State {
    let mut state = State { cycle, ..powered(kind) };
    change(&mut state);
    let mut memory = Memory::new();
    memory.ram[0x3FFF] = 0x5A;
    let mut model = Model::new(memory, kind);
    model.load(&state);
    for _ in 0..ticks {
        model.tick().expect("the tick is taken");
    }
    model.state()
}

/// The article's numbers (3.4 and its timing diagrams), typed here a second time.
fn the_column() -> bool {
    let found = |column: crate::kind::Column, slot: fn(usize) -> Slot| {
        let place = |n: usize| (1..=column.last_cycle).find(|cycle| column.slot(*cycle) == Some(slot(n)));
        (0..8).map(|n| place(n).unwrap_or(0)).collect::<Vec<u16>>()
    };
    let slots = found(PAL, Slot::Pointer) == [58, 60, 62, 1, 3, 5, 7, 9]
        && found(PAL, Slot::Data) == [59, 61, 63, 2, 4, 6, 8, 10]
        && found(NTSC, Slot::Pointer) == [59, 61, 63, 65, 2, 4, 6, 8]
        && found(NTSC, Slot::Data) == [60, 62, 64, 1, 3, 5, 7, 9];
    // Cycles 1 to 10, and 55 to 65.
    let first = [0x38, 0x30, 0x70, 0x60, 0xE0, 0xC0, 0xC0, 0x80, 0x80, 0];
    let last = [0, 0x01, 0x01, 0x03, 0x03, 0x07, 0x06, 0x0E, 0x0C, 0x1C, 0x18];
    let masks = (1..).zip(first).chain((55..).zip(last)).all(|(cycle, mask)| NTSC.mask(cycle) == mask)
        && (11..55).chain(66..=130).chain([0, 0xFFFF]).all(|cycle| NTSC.mask(cycle) == 0);
    let line = [62, 63, 64, 65].map(|cycle| ticked(MOS6567R8, cycle, 1, |_| {}).cycle) == [63, 64, 65, 1];
    let beam = |s: State| (s.cycle, s.raster, s.frame_flag, s.irq_flags);
    let last_line = beam(ticked(MOS6567R8, 65, 1, |s| s.raster = 261)) == (1, 262, false, 0);
    let ends = beam(ticked(MOS6567R8, 65, 1, |_| {})) == (1, 262, true, 0) && beam(ticked(MOS6567R8, 65, 2, |_| {})) == (2, 0, false, 1);
    let beyond = beam(ticked(MOS6567R8, 65, 65 * 263 * 2, |s| s.compare = 263)) == (65, 262, false, 0);
    let frame = NTSC.frame() == 17_095 && PAL.frame() == 19_656;
    slots && masks && line && last_line && ends && beyond && frame
}

/// 02 (iv): the kind at power-up, and 12 before 3.
fn the_kinds() -> bool {
    let original = Machine::new(Memory::new()).state();
    let powers_up = powered(MOS6569) == original
        && powered(MOS6567R8) == State { kind: MOS6567R8, cycle: 65, raster: 262, ..original.clone() }
        && UNKNOWN.iter().all(|kind| powered(*kind) == State { kind: *kind, ..original.clone() });

    let mut model = Model::new(Memory::new(), MOS6569);
    let mut refused = |kind: u8, bank: u8, late: bool, change: &dyn Fn(&mut State)| -> Option<Refusal> {
        let mut state = powered(kind);
        change(&mut state);
        model.load(&state);
        model.see(bank);
        let told = if late { model.late_byte(1) } else { model.tick() };
        // A refused call leaves the state.
        assert!(told.is_ok() || model.state() == state);
        told.err()
    };
    let at = |cycle: u16, raster: u16| move |s: &mut State| (s.cycle, s.raster) = (cycle, raster);
    let ticks = refused(MOS6569, 0, false, &at(63, 311)).is_none()
        && refused(MOS6569, 0, false, &at(64, 0)) == Some(3)
        && refused(MOS6569, 0, false, &at(65, 262)) == Some(3)
        && refused(MOS6569, 0, false, &at(1, 312)) == Some(3)
        && refused(MOS6567R8, 0, false, &at(65, 262)).is_none()
        && refused(MOS6567R8, 0, false, &at(66, 0)) == Some(3)
        && refused(MOS6567R8, 0, false, &at(1, 263)) == Some(3)
        && refused(MOS6567R8, 4, false, &at(1, 263)) == Some(2);
    let unknown = UNKNOWN.iter().all(|kind| {
        refused(*kind, 0, false, &at(63, 311)) == Some(12)
            && refused(*kind, 0, false, &at(0, 0xFFFF)) == Some(12)
            && refused(*kind, 0, false, &|s| s.clock = CLOCK_LIMIT) == Some(12)
            && refused(*kind, 4, false, &at(63, 311)) == Some(2)
            && refused(*kind, 4, true, &at(63, 311)) == Some(12)
            && refused(*kind, 0, true, &|s| s.pending = Some(3)) == Some(12)
    });
    let late = refused(MOS6567R8, 4, true, &at(65, 262)).is_none() && refused(MOS6567R8, 0, true, &at(65, 263)) == Some(3);
    powers_up && ticks && unknown && late
}

/// The comparisons in 56 and 57, MC and the display mask in 59, and what stays at its number: the row's end in 58, the end of the
/// accesses in 55, the border's right edge in 56 and 57. An unknown kind is asked as a 6569.
fn the_first_slot() -> bool {
    // Sprite 0 on line 0x40, expanded, its flip-flop set.
    let on_line = |s: &mut State| (s.raster, s.y[0], s.enable, s.y_expand) = (0x40, 0x40, 1, 1);
    let dma = |cycle: u16| ticked(MOS6567R8, cycle, 1, on_line).dma;
    let comparisons = [53, 54, 55, 56, 57].map(dma) == [0, 0, 1, 1, 0];
    let flips = [54, 55, 56].map(|cycle| ticked(MOS6567R8, cycle, 1, |s| s.y_expand = 2).flip) == [0xFF, 0xFD, 0xFF];
    let shown = |cycle: u16| {
        let s = ticked(MOS6567R8, cycle, 1, |s| {
            on_line(s);
            (s.dma, s.sprites[0].base) = (1, 9);
        });
        (s.sprites[0].mc, s.sprite_display)
    };
    // Sprite 0's slots move MC on, by one in 59 and by two in 60.
    let loads = [56, 57, 58, 59].map(shown) == [(0, 0), (0, 0), (10, 1), (2, 0)];
    let rc = |cycle: u16| ticked(MOS6567R8, cycle, 1, |s| s.displaying = true).rc;
    let accessing = |cycle: u16| ticked(MOS6567R8, cycle, 1, |s| s.accessing = true).accessing;
    let closed = |ctrl2: u8| [54, 55, 56, 57].map(|cycle| ticked(MOS6567R8, cycle, 1, |s| (s.main_border, s.ctrl2) = (false, ctrl2)).main_border);
    let stays = [56, 57, 58].map(rc) == [0, 1, 0]
        && [53, 54].map(accessing) == [true, false]
        && closed(0) == [false, true, false, false]
        && closed(8) == [false, false, true, false];

    let asked = |kind: u8, cycle: u16| {
        let mut model = Model::new(Memory::new(), kind);
        model.load(&State { cycle, dma: 1, ..powered(kind) });
        let high = model.ba_high_at_phi1();
        model.write_y_expand(1);
        (high, model.state().flip)
    };
    // High by the mask before, and the flip-flop reset by a write.
    let specials = [55, 56, 57, 58].map(|cycle| asked(MOS6567R8, cycle)) == [(true, 0xFF), (true, 0xFE), (true, 0xFF), (false, 0xFF)];
    let unknown = UNKNOWN.iter().all(|kind| [54, 55, 56, 57].map(|cycle| asked(*kind, cycle)) == [(true, 0xFF), (true, 0xFE), (true, 0xFF), (false, 0xFF)]);
    // The line's end of the border is its last cycle.
    let border = [62, 63, 64].map(|cycle| ticked(MOS6567R8, cycle, 1, |s| (s.vertical_border, s.bottom) = (false, 262)).vertical_border);
    comparisons && flips && loads && stays && specials && unknown && border == [false, false, true]
}

/// Slots after the arbitration in 1, 2 and 59, before it in all others; and BA between a bad line and sprite 0.
fn the_slots() -> bool {
    // Without DMA the arbitration takes AEC away: a slot that comes before it still reads.
    let byte = |cycle: u16, sprite: usize, byte: usize| {
        ticked(MOS6567R8, cycle, 1, |s| {
            (s.aec_low, s.aec_counter) = (true, -1);
            s.sprites[sprite].bytes = [7; 3];
        })
        .sprites[sprite]
            .bytes[byte]
    };
    let after = [byte(65, 3, 0), byte(1, 4, 2), byte(58, 0, 2)] == [0xFF; 3];
    let before = [byte(64, 3, 2), byte(2, 4, 0), byte(3, 5, 2), byte(8, 7, 0), byte(59, 0, 0), byte(60, 1, 2), byte(63, 2, 0)] == [0x5A; 7];
    // No slot in 10 and 58; phase 1 of a data slot reads whatever AEC is.
    let none = (0..8).all(|k| byte(9, k, 0) == 7 && byte(9, k, 2) == 7 && byte(57, k, 2) == 7) && byte(65, 3, 1) == 0x5A;

    // Sprite 0 begins in 56: AEC is low from 59 on, and its first byte is read there.
    let starts = |ticks: u16| ticked(MOS6567R8, 55, ticks, |s| (s.raster, s.y[0], s.enable) = (0x40, 0x40, 1));
    let aec = [1, 2, 3, 4, 5, 6].map(|ticks| (starts(ticks).ba_low, starts(ticks).aec_low));
    let falls = aec == [(true, false), (true, false), (true, false), (true, true), (true, true), (false, false)];
    let read = starts(4).sprites[0];
    let late = ticked(MOS6567R8, 58, 1, |s| s.dma = 1).sprites[0];
    let bytes = (read.bytes[2], read.mc) == (0, 1) && (late.bytes[2], late.mc) == (0xFF, 1);

    // A bad line with sprite 0: BA has a gap in 55, which the 6569 has not.
    let bad = |kind: u8| {
        [54, 55, 56].map(|cycle| {
            let lines = |s: &mut State| (s.raster, s.den_latch, s.dma) = (0x30, true, 1);
            ticked(kind, 53, cycle - 53, lines).ba_low
        })
    };
    after && before && none && falls && bytes && bad(MOS6567R8) == [true, false, true] && bad(MOS6569) == [true, true, true]
}
