//! The kinds of chip (02 (iv)): a column of three numbers each, and what follows from them.

/// The number of a kind in a scene. Every number but these two is an unknown kind.
pub const MOS6569: u8 = 0;
pub const MOS6567R8: u8 = 1;

/// Some numbers of no kind: the first, and ones whose low bits a careless test would take for a kind.
pub const UNKNOWN: [u8; 6] = [2, 3, 64, 128, 129, 255];

/// What a kind has apart from the others.
#[derive(Clone, Copy, Debug, PartialEq, Eq)]
pub struct Column {
    /// The article, 3.4: cycles are counted from 1, lines from 0.
    pub last_cycle: u16,
    pub last_line: u16,
    /// The article's timing diagrams: the cycle of sprite 0's pointer. VICE's table, tested on chips, has the same.
    pub first_pointer: u16,
}

pub const PAL: Column = Column { last_cycle: 63, last_line: 311, first_pointer: 58 };
pub const NTSC: Column = Column { last_cycle: 65, last_line: 262, first_pointer: 59 };

/// Nothing for an unknown kind.
pub fn known(kind: u8) -> Option<Column> {
    match kind {
        MOS6569 => Some(PAL),
        MOS6567R8 => Some(NTSC),
        _ => None,
    }
}

/// For what answers on every state: an unknown kind is asked as a 6569.
pub fn column(kind: u8) -> Column {
    known(kind).unwrap_or(PAL)
}

/// A kind by its name on the chip.
pub fn named(name: &str) -> Option<u8> {
    match name {
        "6569" => Some(MOS6569),
        "6567R8" => Some(MOS6567R8),
        _ => None,
    }
}

/// What the bus does for a sprite in one cycle.
#[derive(Clone, Copy, Debug, PartialEq, Eq)]
pub enum Slot {
    /// Its pointer, and its first byte, which is byte 2.
    Pointer(usize),
    /// Its other two bytes.
    Data(usize),
}

impl Column {
    /// The cycle so many after sprite 0's pointer, on a line that goes round.
    fn past_pointer(self, cycles: u16) -> u16 {
        (self.first_pointer + cycles - 1) % self.last_cycle + 1
    }

    /// The ticks of a frame.
    pub fn frame(self) -> u64 {
        u64::from(self.last_cycle) * (u64::from(self.last_line) + 1)
    }

    pub fn next(self, cycle: u16) -> u16 {
        if cycle == self.last_cycle {
            1
        } else {
            cycle + 1
        }
    }

    /// 3.6: every second cycle is the pointer of the next sprite, the cycle after it has the data.
    pub fn slot(self, cycle: u16) -> Option<Slot> {
        let pointer = |n: &usize| self.past_pointer(2 * *n as u16) == cycle;
        let data = |n: &usize| self.past_pointer(2 * *n as u16 + 1) == cycle;
        (0..8).find(pointer).map(Slot::Pointer).or((0..8).find(data).map(Slot::Data))
    }

    /// 3.6: a sprite asks for the bus from three cycles before its pointer to its data. Which ask in this cycle; none in a cycle
    /// that the line has not.
    pub fn mask(self, cycle: u16) -> u8 {
        let asks = |n: u16| (0..5).any(|k| self.past_pointer(self.last_cycle - 3 + 2 * n + k) == cycle);
        (0..8).filter(|n| asks(*n)).fold(0, |mask, n| mask | 1 << n)
    }

    /// 3.8.1, rules 2 and 3, number 55 and 56 for the 6569: three and two cycles before sprite 0's pointer.
    pub fn first_comparison(self) -> u16 {
        self.first_pointer - 3
    }

    pub fn second_comparison(self) -> u16 {
        self.first_pointer - 2
    }
}
