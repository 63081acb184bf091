//! Questions that a replay case has no room for: the input of the port's program `ask`, made and answered with the original, and
//! by the model where another kind is asked.
//!
//! Where docs/DIFFERENCES.md has the port leave the original, the original is asked all the same and must do what that page
//! says of it; the answer is then the port's. Nothing else is put right.

use crate::cases::{lend, Maker};
use crate::chip::{Chip, Judges, Refusal, BANK_ABOVE_3, WRONG_LENGTH};
use crate::kind::{column, MOS6567R8, MOS6569, UNKNOWN};
use crate::memory::{Memory, COLOUR, RAM, ROM};
use crate::model::powered;
use crate::replay::{answer_case, create, fill, open, Case, BA_HIGH_AT_PHI1};
use crate::scene::{State, SCENE};
use crate::vic::glue::Machine;
use crate::vic::timing::VicTiming;
use std::collections::HashMap;
use std::fs;
use std::io::{self, Write};
use std::panic;
use std::path::Path;

pub const POWER_UP: u8 = 0;
pub const MASK: u8 = 1;
pub const BAD_LINE: u8 = 2;
pub const COUNT: u8 = 3;
pub const BLOCK: u8 = 4;
pub const WRITE: u8 = 5;
pub const READ: u8 = 6;

const HEAD: usize = 7;
/// What `ask` can lend: a RAM up to the memories' end, a ROM from RAM's end on.
const LONGEST_RAM: u16 = (RAM + ROM + COLOUR) as u16;
const LONGEST_ROM: u16 = (ROM + COLOUR) as u16;
/// The original's table of lines, by which it traps above (docs/DIFFERENCES.md, 14).
const LINES: u16 = 512;
/// The original's forced clock at power-up (docs/DIFFERENCES.md, 13).
const FORCED_AT_POWER_UP: i64 = -40;

/// How many answers are the port's and not the original's, by their numbers in docs/DIFFERENCES.md, and how many the model's.
#[derive(Default)]
struct Departures {
    power_up: u64,
    line_above: u64,
    model: u64,
}

/// Whether the original stops itself here; its message is not printed.
pub fn panics(act: impl FnOnce() + panic::UnwindSafe) -> bool {
    let hook = panic::take_hook();
    panic::set_hook(Box::new(|_| {}));
    let stopped = panic::catch_unwind(act).is_err();
    panic::set_hook(hook);
    stopped
}

/// The request mask: the original's table is private, so each sprite is asked by itself.
pub fn mask_at(machine: &mut Machine, cycle: u16) -> u8 {
    machine.power_up(MOS6569);
    let powered = machine.state();
    let mut mask = 0;
    for k in 0..8 {
        let mut state = powered.clone();
        state.cycle = cycle;
        state.ba_output_high = true;
        state.dma = 1 << k;
        state.previous_dma = 1 << k;
        let bytes = answer_case(machine, &Case { call: BA_HIGH_AT_PHI1, bank: 0, arguments: [0; 4], state });
        if bytes[1] == 0 {
            mask |= 1 << k;
        }
    }
    mask
}

/// The scene of power-up: the original's, and only its forced clock is another. Of another kind it is the model's.
fn power_up(kind: u8, departures: &mut Departures) -> io::Result<Vec<u8>> {
    if kind != MOS6569 {
        return Ok(powered(kind).encode().to_vec());
    }
    let mut state = Machine::original_power_up();
    if state.forced_clock != FORCED_AT_POWER_UP {
        return Err(io::Error::other("the original's forced clock at power-up is not that of difference 13"));
    }
    state.forced_clock = 0;
    departures.power_up += 1;
    Ok(state.encode().to_vec())
}

/// Bad or not for each YSCROLL, twice: the library and the front end are to say the same.
fn bad_lines(raster: u16, latch: bool, departures: &mut Departures) -> io::Result<Vec<u8>> {
    if raster >= LINES {
        // The table is looked up before YSCROLL is, so one question tells for all.
        if !panics(move || _ = VicTiming::compute_is_badline(raster, raster as u8 & 7, latch)) {
            return Err(io::Error::other(format!("the original has an answer for raster line {raster}, which difference 14 denies")));
        }
        departures.line_above += 256;
        return Ok(vec![0; 512]);
    }
    let row = (0..=255).map(|yscroll| VicTiming::compute_is_badline(raster, yscroll, latch).into());
    Ok(row.clone().chain(row).collect())
}

/// docs/SCOPE.md's refusals; the bytes are the original's.
fn block(machine: &mut Machine, pointer: u8, bank: u8, ram: u16, rom: u16) -> Vec<u8> {
    let refused = |number: Refusal| vec![number, 0];
    if usize::from(ram) != RAM || usize::from(rom) != ROM {
        return refused(WRONG_LENGTH);
    }
    if bank > 3 {
        return refused(BANK_ABOVE_3);
    }
    [&[0, 64], &machine.sprite_bytes(pointer, bank)[..]].concat()
}

/// What answers: both judges, and the original's masks as far as they were asked.
struct Asked {
    judges: Judges,
    masks: HashMap<u16, u8>,
}

impl Asked {
    /// The library's and the front end's for the kind, and the front end's that has no kind: the 6569's.
    fn masks(&mut self, cycle: u16, kind: u8) -> Vec<u8> {
        let theirs = *self.masks.entry(cycle).or_insert_with(|| mask_at(&mut self.judges.original, cycle));
        let mask = if kind == MOS6569 { theirs } else { column(kind).mask(cycle) };
        vec![mask, mask, theirs]
    }
}

/// The kind that says who judges; the questions about bad lines, counts and blocks have none.
fn kind_of(head: &[u8; HEAD], state: Option<&State>) -> u8 {
    match head[0] {
        POWER_UP => head[1],
        MASK => head[3],
        _ => state.map_or(MOS6569, |state| state.kind),
    }
}

/// One answer; nothing where the question ends the run.
fn told(asked: &mut Asked, head: &[u8; HEAD], state: Option<&State>, departures: &mut Departures) -> io::Result<Option<Vec<u8>>> {
    let number = |place: usize| u16::from_le_bytes([head[place], head[place + 1]]);
    let kind = kind_of(head, state);
    departures.model += u64::from(kind != MOS6569);
    let chip = asked.judges.of(kind);
    if let Some(state) = state {
        chip.load(state);
    }
    Ok(Some(match head[0] {
        POWER_UP => power_up(kind, departures)?,
        MASK => asked.masks(number(1), kind),
        BAD_LINE => bad_lines(number(1), head[3] != 0, departures)?,
        COUNT => vec![head[1].count_ones() as u8; 2],
        BLOCK if number(3) > LONGEST_RAM || number(5) > LONGEST_ROM => return Ok(None),
        BLOCK => block(&mut asked.judges.original, head[1], head[2], number(3), number(5)),
        WRITE => {
            chip.write(number(1), head[3]);
            chip.state().encode().to_vec()
        }
        READ => vec![chip.read(number(1), head[3], head[4])],
        _ => return Ok(None),
    }))
}

/// Answers a file of questions, as far as they go.
pub fn answer(input: &str, output: &str) -> io::Result<()> {
    let mut input = open(input)?;
    let mut output = create(output)?;
    let mut memory = Memory::new();
    for part in [&mut memory.ram[..], &mut memory.rom[..], &mut memory.colour[..]] {
        if fill(&mut input, part)? < part.len() {
            return output.flush();
        }
    }
    let mut asked = Asked { judges: Judges::new(memory, true), masks: HashMap::new() };
    let mut departures = Departures::default();
    loop {
        let mut head = [0; HEAD];
        if fill(&mut input, &mut head)? < HEAD {
            break;
        }
        let mut state = None;
        if head[0] >= WRITE {
            let mut scene = [0; SCENE];
            if fill(&mut input, &mut scene)? < SCENE {
                break;
            }
            let Some(decoded) = State::decode(&scene) else { break };
            state = Some(decoded);
        }
        match told(&mut asked, &head, state.as_ref(), &mut departures)? {
            Some(bytes) => output.write_all(&bytes)?,
            None => break,
        }
    }
    output.flush()?;
    println!("{} by difference 13, {} by difference 14, {} by the model", departures.power_up, departures.line_above, departures.model);
    Ok(())
}

/// A question's first bytes: its kind and what it is asked with.
fn head(kind: u8, given: &[u8]) -> Vec<u8> {
    let mut bytes = vec![kind];
    bytes.extend(given);
    bytes.resize(HEAD, 0);
    bytes
}

fn numbered(kind: u8, number: u16, more: &[u8]) -> Vec<u8> {
    head(kind, &[&number.to_le_bytes(), more].concat())
}

fn block_question(pointer: u8, bank: u8, ram: usize, rom: usize) -> Vec<u8> {
    head(BLOCK, &[&[pointer, bank], &(ram as u16).to_le_bytes()[..], &(rom as u16).to_le_bytes()].concat())
}

/// Every pair of lengths of these, the right ones too.
const RAMS: [usize; 10] = [0, 1, 64, ROM, RAM - 64, RAM - 1, RAM, RAM + 1, RAM + ROM, LONGEST_RAM as usize];
const ROMS: [usize; 8] = [0, 1, 64, ROM - 64, ROM - 1, ROM, ROM + 1, LONGEST_ROM as usize];

/// A register's question about any state: by this address, and with any bytes.
fn register(maker: &mut Maker, kind: u8, address: u16) -> Vec<u8> {
    let state = maker.anything();
    let (x, y) = (maker.random.byte(), maker.random.byte());
    [numbered(kind, address, &[x, y]), state.encode().to_vec()].concat()
}

/// The parts, a file each: all numbers where there are at most millions; of one kind alone, or of all.
pub fn make(seed: u64, folder: &str, only: Option<u8>) -> io::Result<()> {
    fs::create_dir_all(folder)?;
    let mut maker = Maker::new(seed, only);
    let memory = maker.memory().clone();
    let part = |name: &str, questions: &mut dyn Iterator<Item = Vec<u8>>| {
        let mut output = create(&Path::new(folder).join(format!("{name}.bin")).to_string_lossy())?;
        lend(&memory, &mut output)?;
        for question in questions {
            output.write_all(&question)?;
        }
        output.flush()
    };
    let all = || 0..=u16::MAX;
    let bytes = || 0..=u8::MAX;
    let kinds = |of: &[u8]| only.map_or(of.to_vec(), |kind| vec![kind]);
    part("power-up", &mut kinds(&bytes().collect::<Vec<u8>>()).into_iter().map(|kind| head(POWER_UP, &[kind])))?;
    // Every number for both kinds and some of none; for each of the others a line's cycles and some more.
    let whole = kinds(&[&[MOS6569, MOS6567R8], &UNKNOWN[..]].concat());
    let every = whole.clone().into_iter().flat_map(|kind| all().map(move |cycle| numbered(MASK, cycle, &[kind])));
    let rest = kinds(&bytes().collect::<Vec<u8>>()).into_iter().filter(|kind| !whole.contains(kind));
    part("mask", &mut every.chain(rest.flat_map(|kind| (0..=130).map(move |cycle| numbered(MASK, cycle, &[kind])))))?;
    part("bad line", &mut all().flat_map(|raster| [0, 1].map(|latch| numbered(BAD_LINE, raster, &[latch]))))?;
    part("other latch", &mut (0..LINES).flat_map(|raster| (2..=255).map(move |latch| numbered(BAD_LINE, raster, &[latch]))))?;
    part("sprite count", &mut bytes().map(|dma| head(COUNT, &[dma])))?;
    let right = bytes().flat_map(|bank| bytes().map(move |pointer| block_question(pointer, bank, RAM, ROM)));
    let banks = [0, 1, 2, 3, 4, 255].into_iter();
    let lengths = banks.flat_map(|bank| RAMS.into_iter().flat_map(move |ram| ROMS.into_iter().map(move |rom| (bank, ram, rom))));
    let wrong = lengths.flat_map(|(bank, ram, rom)| [0, 63, 64, 127, 128, 255].map(|pointer| block_question(pointer, bank, ram, rom)));
    part("block", &mut right.chain(wrong))?;
    part("register write", &mut all().map(|address| register(&mut maker, WRITE, address)))?;
    part("register read", &mut all().map(|address| register(&mut maker, READ, address)))
}

/// A few of each kind, with the edges of each.
pub fn make_sample(seed: u64, output: &str) -> io::Result<()> {
    let mut output = create(output)?;
    let mut maker = Maker::new(seed, None);
    lend(maker.memory(), &mut output)?;
    let mut questions = Vec::new();
    questions.extend([MOS6569, MOS6567R8, 2, 255].map(|kind| head(POWER_UP, &[kind])));
    for kind in [MOS6569, MOS6567R8] {
        let beyond = [127, 191, 195, 255, 256, 256 + 63, 256 + 65, 0x3F00 + 63, 0xFFFF];
        questions.extend((0..=68).chain(beyond).map(|cycle| numbered(MASK, cycle, &[kind])));
    }
    for kind in [2, 255] {
        questions.extend([0, 1, 10, 54, 55, 56, 62, 63, 64, 65].map(|cycle| numbered(MASK, cycle, &[kind])));
    }
    for raster in [0, 0x2F, 0x30, 0x31, 0x37, 0xF0, 0xF7, 0xF8, 0x130, 311, 511, 512, 512 + 0x30, 0xFFFF] {
        questions.extend([0, 1, 2].map(|latch| numbered(BAD_LINE, raster, &[latch])));
    }
    questions.extend([0, 1, 0x80, 0x55, 0xFE, 0xFF].map(|dma| head(COUNT, &[dma])));
    for bank in [0, 1, 2, 3, 4, 255] {
        questions.extend([0, 63, 64, 127, 128, 255].map(|pointer| block_question(pointer, bank, RAM, ROM)));
        questions.extend(RAMS.into_iter().map(|ram| block_question(64, bank, ram, ROM)));
        questions.extend(ROMS.into_iter().map(|rom| block_question(64, bank, RAM, rom)));
    }
    for kind in [WRITE, READ] {
        for place in 0..64 {
            let page = maker.random.within(4, 1023) as u16;
            questions.push(register(&mut maker, kind, page * 64 + place));
        }
    }
    for question in questions {
        output.write_all(&question)?;
    }
    output.flush()
}
