//! Replay: cases in, answers out (docs/FORMATS.md, "Replay").

use crate::accept::{takes, CLOCK_LIMIT};
use crate::chip::{Chip, Judges, Refusal, BANK_ABOVE_3, CLOCK_AT_END, NOT_AT_LINE_END};
use crate::kind::{column, MOS6569};
use crate::memory::{Memory, COLOUR, RAM, ROM};
use crate::reads::Reads;
use crate::scene::{State, SCENE};
use std::fs::File;
use std::io::{self, BufReader, BufWriter, Read, Write};

pub const MEMORIES: usize = RAM + ROM + COLOUR;
pub const CASE: usize = 6 + SCENE;
/// Where an answer has a tick's reads, and where the scene afterwards.
pub const READS: usize = 3;
pub const AFTER: usize = READS + 6;
pub const ANSWER: usize = AFTER + SCENE;

pub const TICK: u8 = 0;
pub const WRITE: u8 = 1;
pub const WRITE_Y_EXPAND: u8 = 2;
pub const PLACE_CONTROLS: u8 = 3;
pub const LATE_BYTE: u8 = 4;
pub const BORDER_COMPARES: u8 = 5;
/// The number of a call that is none any more (02 (vii)).
pub const RETIRED: u8 = 6;
pub const READ: u8 = 7;
pub const BA_HIGH_AT_PHI1: u8 = 8;
pub const SPRITES_WITH_DMA: u8 = 9;
pub const WRITE_CONTROL_1: u8 = 10;
pub const WRITE_CONTROL_2: u8 = 11;
pub const POWER_UP: u8 = 12;
pub const CYCLES_LOST: u8 = 13;
pub const LINE: u8 = 14;
pub const TICKS: u8 = 15;

/// The calls that tick: one tick, a line of them, a number of them in one call.
pub const TICKING: [u8; 3] = [TICK, LINE, TICKS];

/// Every other call.
pub const OTHERS: [u8; 12] = [
    WRITE,
    WRITE_Y_EXPAND,
    PLACE_CONTROLS,
    LATE_BYTE,
    BORDER_COMPARES,
    READ,
    BA_HIGH_AT_PHI1,
    SPRITES_WITH_DMA,
    WRITE_CONTROL_1,
    WRITE_CONTROL_2,
    POWER_UP,
    CYCLES_LOST,
];

/// A call's name, for messages; nothing where there is no such call.
pub fn called(call: u8) -> Option<&'static str> {
    Some(match call {
        TICK => "tick",
        WRITE => "register write",
        WRITE_Y_EXPAND => "Y-expand write",
        PLACE_CONTROLS => "place controls",
        LATE_BYTE => "late byte",
        BORDER_COMPARES => "border compares",
        READ => "register read",
        BA_HIGH_AT_PHI1 => "ba_high_at_phi1",
        SPRITES_WITH_DMA => "sprites with DMA",
        WRITE_CONTROL_1 => "control 1 write",
        WRITE_CONTROL_2 => "control 2 write",
        POWER_UP => "power-up",
        CYCLES_LOST => "cycles lost",
        LINE => "line",
        TICKS => "run of ticks",
        _ => return None,
    })
}

#[derive(Clone, Debug)]
pub struct Case {
    pub call: u8,
    pub bank: u8,
    pub arguments: [u8; 4],
    pub state: State,
}

impl Case {
    pub fn encode(&self) -> [u8; CASE] {
        let mut bytes = [0; CASE];
        bytes[0] = self.call;
        bytes[1] = self.bank;
        bytes[2..6].copy_from_slice(&self.arguments);
        bytes[6..].copy_from_slice(&self.state.encode());
        bytes
    }

    /// Nothing where the case ends the run: an unknown call, or no scene.
    pub fn decode(bytes: &[u8; CASE]) -> Option<Self> {
        called(bytes[0])?;
        let arguments = bytes[2..6].try_into().expect("four bytes");
        Some(Self { call: bytes[0], bank: bytes[1], arguments, state: State::decode(&bytes[6..])? })
    }

    /// The kind that says who judges: the scene's, and at power-up the one that is asked for.
    pub fn kind(&self) -> u8 {
        match self.call {
            POWER_UP => self.arguments[0],
            _ => self.state.kind,
        }
    }

    /// How many ticks the call asks for.
    pub fn ticks(&self) -> u16 {
        match self.call {
            TICK => 1,
            LINE => column(self.state.kind).last_cycle,
            TICKS => u16::from_le_bytes([self.arguments[0], self.arguments[1]]),
            _ => 0,
        }
    }
}

/// Why no line begins here (02 (xii)), in the order of the refusals; the lengths of the memories, which come first, cannot be wrong here.
fn no_line(case: &Case) -> Result<(), Refusal> {
    let (s, last) = (&case.state, column(case.state.kind).last_cycle);
    if case.bank > 3 {
        return Err(BANK_ABOVE_3);
    }
    takes(s)?;
    if s.cycle != last {
        return Err(NOT_AT_LINE_END);
    }
    // The clock takes the last of the ticks too.
    if s.clock > CLOCK_LIMIT - 2 * i64::from(last) {
        return Err(CLOCK_AT_END);
    }
    Ok(())
}

/// Ticks one after the other, with no other call between them, up to the first that is refused.
fn ticks(chip: &mut dyn Chip, count: u16) -> Result<(), Refusal> {
    (0..count).try_for_each(|_| chip.tick())
}

/// One call on a given state. The chip is left in the state afterwards.
pub fn perform(chip: &mut dyn Chip, case: &Case) -> Result<u16, Refusal> {
    let [a, b, c, d] = case.arguments;
    // The one call that does not look at the scene.
    if case.call == POWER_UP {
        chip.power_up(a);
        return Ok(0);
    }
    chip.load(&case.state);
    chip.see(case.bank);
    match case.call {
        TICK | TICKS => ticks(chip, case.ticks()).map(|()| 0),
        LINE => no_line(case).and_then(|()| ticks(chip, case.ticks())).map(|()| 0),
        WRITE => {
            chip.write(a.into(), b);
            Ok(0)
        }
        WRITE_Y_EXPAND => {
            chip.write_y_expand(a);
            Ok(0)
        }
        PLACE_CONTROLS => chip.place_controls(a, b, u16::from_le_bytes([c, d])).map(|()| 0),
        LATE_BYTE => chip.late_byte(a).map(|()| 0),
        BORDER_COMPARES => {
            chip.border_compares();
            Ok(0)
        }
        READ => Ok(chip.read(a.into(), b, c).into()),
        BA_HIGH_AT_PHI1 => Ok(chip.ba_high_at_phi1().into()),
        WRITE_CONTROL_1 => {
            chip.write_control_1(a);
            Ok(0)
        }
        WRITE_CONTROL_2 => {
            chip.write_control_2(a);
            Ok(0)
        }
        SPRITES_WITH_DMA => Ok(chip.sprites_with_dma().into()),
        CYCLES_LOST => Ok(chip.cycles_lost().into()),
        call => unreachable!("call {call} is no case"),
    }
}

/// The 320 bytes that a case is answered with.
pub fn answer_case(chip: &mut dyn Chip, case: &Case) -> [u8; ANSWER] {
    let (refusal, value) = match perform(chip, case) {
        Ok(value) => (0, value),
        Err(refusal) => (refusal, 0),
    };
    // Only a tick reads, and one that is refused does not (02 (viii)). A run tells the reads of its last one, a line none (02 (xii)).
    let tells = matches!(case.call, TICK | TICKS) && case.ticks() > 0 && refusal == 0;
    let reads = if tells { chip.reads() } else { Reads::default() };
    let mut bytes = [0; ANSWER];
    bytes[0] = refusal;
    bytes[1..READS].copy_from_slice(&value.to_le_bytes());
    bytes[READS..AFTER].copy_from_slice(&reads.encode());
    bytes[AFTER..].copy_from_slice(&chip.state().encode());
    bytes
}

/// Answers a file of cases, as far as they go, each by the judge of its kind. The original alone has no answer to another kind. False
/// where a call leaves the original's two records of sprite DMA apart, or its reads are not the table's.
pub fn answer(input: &str, output: &str, alone: bool) -> io::Result<bool> {
    let mut input = open(input)?;
    let mut output = create(output)?;
    let mut memory = Memory::new();
    for part in [&mut memory.ram[..], &mut memory.rom[..], &mut memory.colour[..]] {
        if fill(&mut input, part)? < part.len() {
            eprintln!("the input ends inside the memories: nothing to answer");
            return output.flush().map(|()| true);
        }
    }
    let mut judges = Judges::new(memory, alone);
    let mut count = 0u64;
    loop {
        let mut bytes = [0; CASE];
        let length = fill(&mut input, &mut bytes)?;
        if length == 0 {
            break;
        }
        let case = if length == CASE { Case::decode(&bytes) } else { None };
        let Some(case) = case else {
            eprintln!("case {count} is cut off, not a scene or another call: the answers end before it");
            break;
        };
        if alone && case.kind() != MOS6569 {
            return Err(io::Error::other(format!("case {count} is of kind {}, of which the original is no judge", case.kind())));
        }
        output.write_all(&answer_case(judges.of(case.kind()), &case))?;
        count += 1;
    }
    output.flush()?;
    let records = judges.original.records();
    eprintln!(
        "{count} cases answered; the original's DMA mask and flags looked at after {} calls, its reads traced in {} ticks",
        records.looked, records.traced
    );
    Ok(records.agree())
}

/// Opens a file, with its name in the message where that fails.
pub fn open(name: &str) -> io::Result<BufReader<File>> {
    File::open(name).map(BufReader::new).map_err(|error| io::Error::new(error.kind(), format!("{name}: {error}")))
}

pub fn create(name: &str) -> io::Result<BufWriter<File>> {
    File::create(name).map(BufWriter::new).map_err(|error| io::Error::new(error.kind(), format!("{name}: {error}")))
}

/// Reads until the part is full or the input ends; answers how much there was.
pub fn fill(input: &mut impl Read, part: &mut [u8]) -> io::Result<usize> {
    let mut at = 0;
    while at < part.len() {
        match input.read(&mut part[at..]) {
            Ok(0) => break,
            Ok(length) => at += length,
            Err(error) if error.kind() == io::ErrorKind::Interrupted => {}
            Err(error) => return Err(error),
        }
    }
    Ok(at)
}
