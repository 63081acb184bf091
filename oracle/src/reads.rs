//! What a tick reads (02 (viii)): reason and address of each read, in order.
//!
//! The original has addresses and no reasons. Its reads are traced where it reads memory; the reasons are those of the request's table,
//! by the original's own state, and each read that the table has must be one that was traced, at an address of that reason.

use crate::kind::{Slot, PAL};
use crate::scene::State;

/// The chip has fourteen address lines.
pub const LINES: u16 = 0x3FFF;
/// Where a chip reads that has nothing to read.
const IDLE: u16 = 0x3FFF;
/// Where refresh reads, with the counter below it (02 (xiv)).
pub const REFRESH: u16 = 0x3F00;
/// Where an idle access of the display may read besides.
const IDLE_TOO: [u16; 2] = [0x39FF, 0x38FF];

/// The numbers of docs/FORMATS.md, "Replay".
#[derive(Clone, Copy, Debug, PartialEq, Eq)]
pub enum Reason {
    Pointer = 1,
    Sprite = 2,
    Matrix = 3,
    Graphics = 4,
    Idle = 5,
    Refresh = 6,
}

impl Reason {
    pub fn word(self) -> &'static str {
        match self {
            Reason::Pointer => "pointer",
            Reason::Sprite => "sprite",
            Reason::Matrix => "matrix",
            Reason::Graphics => "graphics",
            Reason::Idle => "idle",
            Reason::Refresh => "refresh",
        }
    }
}

pub type Read = (Reason, u16);

/// A tick's reads: the first and the second, and never a third.
#[derive(Clone, Copy, Debug, Default, PartialEq, Eq)]
pub struct Reads([Option<Read>; 2]);

impl Reads {
    pub fn of(reads: &[Read]) -> Self {
        let mut all = Self::default();
        reads.iter().for_each(|read| all.add(*read));
        all
    }

    pub fn add(&mut self, read: Read) {
        let free = self.0.iter_mut().find(|place| place.is_none());
        *free.expect("a tick reads twice at most") = Some(read);
    }

    pub fn is_empty(&self) -> bool {
        self.0[0].is_none()
    }

    pub fn iter(&self) -> impl Iterator<Item = Read> + '_ {
        self.0.iter().flatten().copied()
    }

    /// Three bytes each, reason and address; zeros where there is none.
    pub fn encode(&self) -> [u8; 6] {
        let mut bytes = [0; 6];
        for (part, (reason, address)) in bytes.chunks_exact_mut(3).zip(self.iter()) {
            let [low, high] = address.to_le_bytes();
            part.copy_from_slice(&[reason as u8, low, high]);
        }
        bytes
    }
}

/// The addresses that memory was read at in a tick, in order, as the chip has them.
#[derive(Clone, Copy, Debug, Default, PartialEq, Eq)]
pub struct Trace {
    count: usize,
    at: [u16; 4],
}

impl Trace {
    pub fn note(&mut self, address: u16) {
        // What has no room is counted all the same, and fits no table.
        if let Some(place) = self.at.get_mut(self.count) {
            *place = address & LINES;
        }
        self.count += 1;
    }

    pub fn clear(&mut self) {
        *self = Self::default();
    }

    fn addresses(&self) -> Option<&[u16]> {
        self.at.get(..self.count)
    }
}

/// What the table goes by and a state after the tick does not say: the AEC flag that the last tick left, and whether a transition was
/// pending.
#[derive(Clone, Copy)]
pub struct Before {
    pub aec_low: bool,
    pub entering: bool,
}

/// The request's table, for the 6569: the reasons of a tick's reads, by the cycle that it is in.
fn reasons(before: Before, s: &State) -> Vec<Reason> {
    let idle_if = |read: bool| read.then_some(Reason::Idle);
    let matrix = (s.accessing && s.aec_counter < 0).then_some(Reason::Matrix);
    let graphics = if s.displaying && !before.entering { Reason::Graphics } else { Reason::Idle };
    // The AEC flag of the last tick, but in 1, 2 and sprite 0's pointer slot.
    let aec_low = if matches!(s.cycle, 1 | 2 | 58) { s.aec_low } else { before.aec_low };
    let on = |k: usize| s.dma >> k & 1 == 1;
    let (first, second) = match (PAL.slot(s.cycle), s.cycle) {
        (Some(Slot::Pointer(0)), _) if on(0) => (Some(Reason::Pointer), aec_low.then_some(Reason::Sprite)),
        (Some(Slot::Pointer(k)), _) if on(k) => (Some(Reason::Pointer), Some(Reason::Sprite)),
        (Some(Slot::Pointer(_)), _) => (Some(Reason::Pointer), idle_if(aec_low)),
        (Some(Slot::Data(k)), _) if on(k) => (Some(Reason::Sprite), Some(Reason::Sprite)),
        (Some(Slot::Data(_)), _) => (Some(Reason::Idle), idle_if(aec_low)),
        (None, 11..=14) => (Some(Reason::Refresh), None),
        (None, 15) => (Some(Reason::Refresh), matrix),
        (None, 16..=54) => (Some(graphics), matrix),
        (None, 55) => (Some(graphics), None),
        (None, _) => (Some(Reason::Idle), None),
    };
    first.into_iter().chain(second).collect()
}

/// Whether the chip reads at this address for this reason. `left` is how many reads of the tick are to come. A graphics access may read
/// anywhere: where it does is the original's alone.
fn fits((reason, address): Read, left: u16, s: &State) -> bool {
    let matrix = u16::from(s.memory_pointers & 0xF0) << 6;
    match (reason, PAL.slot(s.cycle)) {
        (Reason::Pointer, Some(Slot::Pointer(k))) => address == matrix + 0x3F8 + k as u16,
        (Reason::Sprite, Some(Slot::Pointer(k) | Slot::Data(k))) => {
            // MC has gone on with each byte.
            let sprite = &s.sprites[k];
            address == u16::from(sprite.pointer) * 64 + (u16::from(sprite.mc) + 63 - left) % 64
        }
        (Reason::Matrix, None) => address == matrix + s.vc,
        // The counter is one less since.
        (Reason::Refresh, None) => address == REFRESH + u16::from(s.refresh.wrapping_add(1)),
        (Reason::Graphics, None) => true,
        (Reason::Idle, None) if (16..=55).contains(&s.cycle) => address == IDLE || IDLE_TOO.contains(&address),
        (Reason::Idle, _) => address == IDLE,
        _ => false,
    }
}

/// The original's reads of a tick: traced, each with the table's reason. Nothing where the trace is not what the table has.
pub fn told(trace: &Trace, before: Before, s: &State) -> Option<Reads> {
    let (reasons, addresses) = (reasons(before, s), trace.addresses()?);
    let reads: Vec<Read> = reasons.iter().copied().zip(addresses.iter().copied()).collect();
    let alike =
        reasons.len() == addresses.len() && reads.len() <= 2 && reads.iter().zip((0..reads.len() as u16).rev()).all(|(read, left)| fits(*read, left, s));
    alike.then(|| Reads::of(&reads))
}
