//! A scene worked through steps again and again, as the port's program `pace` does it, for a clock that stands outside.
//!
//! In: the three memories, a scene, the bank, a byte for the port alone, the turns (4 bytes), and steps of an address, a
//! value and a count of ticks (2 bytes). Out: the scene afterwards. The scene's kind says which chip it is.

use crate::chip::Judges;
use crate::kind::MOS6569;
use crate::late::Met;
use crate::memory::Memory;
use crate::replay::{fill, MEMORIES};
use crate::scene::{State, SCENE};
use std::io::{self, Write};

const HEAD: usize = 6;

pub fn pace(input: &[u8], output: &mut impl Write, alone: bool) -> io::Result<Met> {
    let bad = |what: &str| io::Error::new(io::ErrorKind::InvalidInput, what.to_string());
    if input.len() < MEMORIES + SCENE + HEAD {
        return Err(bad("the input ends before its steps"));
    }
    let (memories, rest) = input.split_at(MEMORIES);
    let (scene, rest) = rest.split_at(SCENE);
    let (head, steps) = rest.split_at(HEAD);
    let state = State::decode(scene).ok_or_else(|| bad("the input holds no scene"))?;
    let mut memory = Memory::new();
    let mut from = memories;
    for part in [&mut memory.ram[..], &mut memory.rom[..], &mut memory.colour[..]] {
        fill(&mut from, part)?;
    }
    if alone && state.kind != MOS6569 {
        return Err(bad("the original is a 6569"));
    }
    let mut judges = Judges::new(memory, alone);
    let chip = judges.of(state.kind);
    chip.load(&state);
    chip.see(head[0]);
    let turns = u32::from_le_bytes(head[2..6].try_into().expect("four bytes"));
    let mut met = Met::default();
    for _ in 0..turns {
        for step in steps.chunks_exact(4) {
            chip.write(step[0].into(), step[1]);
            chip.run(u16::from_le_bytes([step[2], step[3]]), &mut met);
        }
    }
    output.write_all(&chip.state().encode())?;
    met.records = chip.records();
    Ok(met)
}
