//! Compares two files of answers, field by field.

use crate::kind::{known, MOS6567R8, MOS6569};
use crate::late::{is_late, MOVED};
use crate::replay::{called, fill, open, Case, AFTER, ANSWER, CASE, MEMORIES, READS, TICK, TICKS};
use crate::scene::{fields, Field, Sort, State};
use std::io::{self, Read};

/// How many differing cases are shown in full.
const SHOWN: u64 = 10;

/// The answer's own fields, the head, and the scene's, with places counted from the answer's start.
fn table() -> Vec<Field> {
    let own = |name: &str, offset, size| Field { name: name.into(), offset, size, sort: Sort::Number };
    let mut table = vec![own("refusal", 0, 1), own("answer", 1, 2)];
    for (number, place) in [("first", READS), ("second", READS + 3)] {
        table.push(own(&format!("{number} read's reason"), place, 1));
        table.push(own(&format!("{number} read's address"), place + 1, 2));
    }
    table.push(own("head", AFTER, 4));
    table.extend(fields().into_iter().map(|field| Field { offset: field.offset + AFTER, ..field }));
    table
}

/// True where the files are the same and answer every case that is one. Who judges each is counted: the model, or the original, with
/// its stand-in in ticks that find DEN late. Where the original answered alone these are left out: there the fields of `MOVED` may
/// differ, and no other.
pub fn compare(input: &str, ours: &str, theirs: &str, alone: bool) -> io::Result<bool> {
    let mut input = open(input)?;
    let mut ours = open(ours)?;
    let mut theirs = open(theirs)?;
    let table = table();
    let mut counts = vec![0u64; table.len()];
    let mut moved = vec![0u64; MOVED.len()];
    let (mut compared, mut differing) = (0u64, 0u64);
    let (mut late, mut late_differing) = (0u64, 0u64);
    // Of the model's answers: those of the 6567R8, those of no kind, and how many of both differ.
    let (mut ntsc, mut unknown, mut model_differing) = (0u64, 0u64, 0u64);

    let mut memories = vec![0; MEMORIES];
    fill(&mut input, &mut memories)?;
    let ended_well = loop {
        let mut case = [0; CASE];
        let (mut a, mut b) = ([0; ANSWER], [0; ANSWER]);
        let case_length = fill(&mut input, &mut case)?;
        let (a_length, b_length) = (fill(&mut ours, &mut a)?, fill(&mut theirs, &mut b)?);
        let decoded = if case_length == CASE { Case::decode(&case) } else { None };
        let wanted = decoded.is_some();
        if !wanted || a_length < ANSWER || b_length < ANSWER {
            // Two files that are short in the same way agree on nothing beyond their end.
            let ended_well = !wanted && a_length == 0 && b_length == 0;
            if !ended_well {
                let place = if wanted { "which wants an answer" } else { "which is none" };
                println!("at case {compared}, {place}: ours has {a_length} bytes, theirs {b_length}");
            }
            break ended_well;
        }
        let kind = decoded.as_ref().map_or(MOS6569, Case::kind);
        ntsc += u64::from(kind == MOS6567R8);
        unknown += u64::from(known(kind).is_none());
        model_differing += u64::from(kind != MOS6569 && a != b);
        // A run finds DEN late with its first tick or with none, and a line, which begins with the latch stored, never.
        let is_late = b[0] == 0 && decoded.as_ref().is_some_and(|case| matches!(case.call, TICK | TICKS) && case.ticks() > 0 && is_late(&case.state));
        let is_tick = decoded.is_some_and(|case| case.call == TICK);
        late += u64::from(is_late);
        if a != b && is_late && alone {
            late_differing += 1;
            let mut beyond = false;
            // What the ticks after it make of it is left out as a whole.
            for field in table.iter().filter(|field| is_tick && a[field.offset..][..field.size] != b[field.offset..][..field.size]) {
                match MOVED.iter().position(|name| *name == family(field)) {
                    Some(place) => moved[place] += 1,
                    None => {
                        println!("case {compared}: {}\n  a late DEN moves {}", describe(&case), field.name);
                        beyond = true;
                    }
                }
            }
            differing += u64::from(beyond);
        } else if a != b {
            differing += 1;
            let shown = differing <= SHOWN;
            if shown {
                println!("case {compared}: {}", describe(&case));
            }
            for (field, count) in table.iter().zip(&mut counts) {
                let range = field.offset..field.offset + field.size;
                let (a, b) = (&a[range.clone()], &b[range]);
                if a != b {
                    *count += 1;
                    if shown {
                        println!("  {}: ours {}, theirs {}", field.name, value(field, a), value(field, b));
                    }
                }
            }
        }
        compared += 1;
    };
    if alone {
        println!("{} answers compared, {differing} differ", compared - late);
        println!("{late} more left out, a tick that finds DEN late, {late_differing} of them differ");
        for (name, count) in MOVED.iter().zip(&moved).filter(|(_, count)| **count > 0) {
            println!("  late {count:>8}  {name}");
        }
    } else {
        println!("{compared} answers compared, {differing} differ");
        println!("{late} of them by the stand-in of a late DEN");
        println!("{ntsc} of them by the model, of the 6567R8, and {unknown} of no kind; {model_differing} of these differ");
    }
    for (field, count) in table.iter().zip(&counts).filter(|(_, count)| **count > 0) {
        println!("  {count:>8}  {}{}", field.name, place(field));
    }
    Ok(ended_well && differing == 0)
}

/// A field's name without its number: a matrix entry is one of forty.
fn family(field: &Field) -> &str {
    field.name.trim_end_matches(|c: char| c.is_ascii_digit()).trim_end()
}

/// Where the field is in a scene; the first ones are the answer's own.
fn place(field: &Field) -> String {
    if field.offset < AFTER {
        String::new()
    } else {
        format!(" (scene byte {})", field.offset - AFTER)
    }
}

fn value(field: &Field, bytes: &[u8]) -> i128 {
    let number = bytes.iter().rev().fold(0i128, |number, byte| number << 8 | i128::from(*byte));
    let size = 8 * field.size;
    if field.sort == Sort::Signed && number >> (size - 1) & 1 == 1 {
        number - (1 << size)
    } else {
        number
    }
}

fn describe(case: &[u8; CASE]) -> String {
    let call = called(case[0]).unwrap_or("no call");
    let place = match State::decode(&case[6..]) {
        Some(s) => format!("kind {}, cycle {}, raster {}, mode {}, DMA mask {:#04x}", s.kind, s.cycle, s.raster, s.mode, s.dma),
        None => "not a scene".into(),
    };
    format!("{call}, bank {}, bytes {:?}, on a state with {place}", case[1], &case[2..6])
}

/// Prints one case of a file; false where there is none.
pub fn show(input: &str, number: u64) -> io::Result<bool> {
    let mut input = open(input)?;
    let skipped = MEMORIES as u64 + number * CASE as u64;
    if io::copy(&mut input.by_ref().take(skipped), &mut io::sink())? < skipped {
        println!("there is no case {number}");
        return Ok(false);
    }
    let mut case = [0; CASE];
    if fill(&mut input, &mut case)? < CASE {
        println!("there is no case {number}");
        return Ok(false);
    }
    println!("case {number}: {}", describe(&case));
    for field in fields() {
        println!("  {}: {}", field.name, value(&field, &case[6 + field.offset..][..field.size]));
    }
    Ok(true)
}
