//! The original VIC-II as judge of the port, and a model of ours for the kind of which there is none. README.md says what each command
//! does.

mod accept;
mod ask;
mod bus;
mod cases;
mod chart;
mod check;
mod chip;
mod clockchip;
mod compare;
mod dump;
mod kind;
mod late;
mod memory;
mod model;
mod pace;
mod pla;
mod play;
mod reads;
mod replay;
mod rng;
mod runs;
mod scene;
mod selftest;
mod states;
mod vic;
mod walk;

use chip::Judges;
use kind::{column, named, MOS6569};
use memory::Memory;
use model::Model;
use std::io::{self, BufWriter, Read, Write};
use std::process::ExitCode;
use vic::glue::Machine;

const USAGE: &str = "usage, with --alone before the command for the original without its stand-in of a late DEN, and on the 6569 alone,
or with --kind 6569 or --kind 6567R8 for one kind of chip:
  oracle cases SEED COUNT OUTFILE        make replay input
  oracle ends SEED COUNT DIR             make replay inputs that end early
  oracle answer INFILE OUTFILE           answer replay input
  oracle compare-replay IN OURS THEIRS   compare two files of answers
  oracle show INFILE NUMBER              print one case of a replay input
  oracle fields                          list a scene's fields: place, size, sort, name
  oracle runs SEED COUNT DIR             make run files
  oracle late-runs SEED COUNT DIR        make run files with DEN late on line 0x30
  oracle sample-run SEED OUTFILE         make a run file of one frame and a little more
  oracle chart < FILE > OUT              chart a run file
  oracle dump < FILE > OUT               dump a run file's ticks
  oracle bus < FILE > OUT                tell what a run file's ticks read
  oracle questions SEED DIR              make questions for ask, a file for each part
  oracle sample-questions SEED OUTFILE   make the few questions that the test asks
  oracle ask INFILE OUTFILE              answer questions
  oracle check SEED COUNT                check the original on accepted states
  oracle check-model SEED COUNT          check the model by the original
  oracle power-up > SCENE                write the scene of a chip at power-up
  oracle renew < OLD > SCENE             write a scene of any version as one of the newest
  oracle pace < FILE > SCENE             work a scene through steps, for bench/run
  oracle selftest                        check the oracle's own parts";

fn main() -> ExitCode {
    let arguments: Vec<String> = std::env::args().skip(1).collect();
    let arguments: Vec<&str> = arguments.iter().map(String::as_str).collect();
    match run(&arguments) {
        Ok(Some(true)) => ExitCode::SUCCESS,
        Ok(Some(false)) => ExitCode::from(1),
        Ok(None) => {
            eprintln!("{USAGE}");
            ExitCode::from(2)
        }
        Err(error) => {
            eprintln!("oracle: {error}");
            ExitCode::from(2)
        }
    }
}

/// The command's verdict; nothing where there is no such command.
fn run(arguments: &[&str]) -> io::Result<Option<bool>> {
    let (alone, only, arguments) = match arguments {
        // The original is a 6569.
        ["--alone", rest @ ..] => (true, Some(MOS6569), rest),
        ["--kind", name, rest @ ..] => match named(name) {
            Some(kind) => (false, Some(kind), rest),
            None => return Ok(None),
        },
        all => (false, None, all),
    };
    // A run file has no place for the kind.
    let kind = only.unwrap_or(MOS6569);
    let verdict = match *arguments {
        ["cases", seed, count, output] => cases::make(number(seed)?, number(count)?, output, only).map(|apart| {
            println!("{count} cases, {apart} of them drawn with flags apart from the DMA mask, and taken by the mask");
            true
        }),
        ["ends", seed, count, folder] => cases::make_ends(number(seed)?, number(count)?, folder, only).map(|ends| {
            println!("{ends} kinds of end");
            true
        }),
        ["answer", input, output] => replay::answer(input, output, alone),
        ["compare-replay", input, ours, theirs] => compare::compare(input, ours, theirs, alone),
        ["show", input, place] => compare::show(input, number(place)?),
        ["fields"] => {
            let mut output = BufWriter::new(io::stdout().lock());
            for field in scene::fields() {
                writeln!(output, "{:3} {} {} {}", field.offset, field.size, field.sort.word(), field.name)?;
            }
            output.flush().map(|()| true)
        }
        ["runs", seed, count, folder] => runs::make(number(seed)?, number(count)?, folder, column(kind), runs::plain).map(|()| true),
        ["late-runs", seed, count, folder] => runs::make(number(seed)?, number(count)?, folder, column(kind), runs::late).map(|()| true),
        ["sample-run", seed, output] => runs::make_sample(number(seed)?, output, column(kind)).map(|()| true),
        ["chart"] => {
            let mut output = BufWriter::new(io::stdout().lock());
            let met = match kind {
                MOS6569 => chart::chart(&given()?, &mut output, |memory| Machine::judging(memory, alone))?,
                _ => chart::chart(&given()?, &mut output, |memory| Model::new(memory, kind))?,
            };
            output.flush().map(|()| met.tell())
        }
        ["dump"] => {
            let mut output = BufWriter::new(io::stdout().lock());
            let met = match kind {
                MOS6569 => dump::dump(&given()?, &mut output, |memory| Machine::judging(memory, alone))?,
                _ => dump::dump(&given()?, &mut output, |memory| Model::new(memory, kind))?,
            };
            output.flush().map(|()| met.tell())
        }
        ["bus"] => {
            let mut output = BufWriter::new(io::stdout().lock());
            let met = match kind {
                MOS6569 => bus::bus(&given()?, &mut output, |memory| Machine::judging(memory, alone))?,
                _ => bus::bus(&given()?, &mut output, |memory| Model::new(memory, kind))?,
            };
            output.flush().map(|()| met.tell())
        }
        ["power-up"] => {
            let mut judges = Judges::new(Memory::new(), alone);
            judges.of(kind).power_up(kind);
            io::stdout().write_all(&judges.of(kind).state().encode()).map(|()| true)
        }
        ["renew"] => {
            let bytes = scene::renewed(&given()?);
            let sound = scene::State::decode(&bytes).is_some();
            io::stdout().write_all(if sound { &bytes } else { &[] }).map(|()| sound)
        }
        ["pace"] => pace::pace(&given()?, &mut io::stdout().lock(), alone).map(|met| met.tell()),
        ["questions", seed, folder] => ask::make(number(seed)?, folder, only).map(|()| true),
        ["sample-questions", seed, output] => ask::make_sample(number(seed)?, output).map(|()| true),
        ["ask", input, output] => ask::answer(input, output).map(|()| true),
        ["check", seed, count] => Ok(check::check(number(seed)?, number(count)?)),
        ["check-model", seed, count] => Ok(check::check_model(number(seed)?, number(count)?)),
        ["selftest"] => Ok(selftest::selftest()),
        _ => return Ok(None),
    };
    verdict.map(Some)
}

/// All of standard input.
fn given() -> io::Result<Vec<u8>> {
    let mut bytes = Vec::new();
    io::stdin().lock().read_to_end(&mut bytes)?;
    Ok(bytes)
}

fn number(text: &str) -> io::Result<u64> {
    text.parse().map_err(|_| io::Error::new(io::ErrorKind::InvalidInput, format!("{text} is not a number")))
}
