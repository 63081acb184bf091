//! Finds the original source and writes the list of its files for the compiler.
//!
//! `#[path]` wants literal paths, and the originals lie outside the repository, in a place that
//! differs from one machine to the next. So the list is made at build time; their text is never copied.

use std::path::{Path, PathBuf};
use std::{env, fs, process};

/// Names another place for the originals: the folder that holds `src/vic`.
const PLACE: &str = "NICKELPLAIT_ORIGINAL";

/// Where they lie by default, seen from this folder.
const DEFAULT_PLACE: &str = "../../shared/docs/src";

const CLOCKCHIP: &[&str] = &["signals"];

const VIC: &[&str] = &[
    "border",
    "border_renderer",
    "bus_access",
    "constants",
    "fetch",
    "foreground_renderer",
    "fsm",
    "raster_line",
    "registers",
    "screen",
    "sequencer",
    "sprite",
    "sprite_dma",
    "sprite_timing",
    "sprite_unit",
    "state",
    "timing",
];

fn main() {
    println!("cargo::rerun-if-changed=build.rs");
    println!("cargo::rerun-if-env-changed={PLACE}");
    let place = match env::var_os(PLACE) {
        Some(place) => PathBuf::from(place),
        None => Path::new(&env::var_os("CARGO_MANIFEST_DIR").expect("cargo sets it")).join(DEFAULT_PLACE),
    };
    let out = PathBuf::from(env::var_os("OUT_DIR").expect("cargo sets it"));
    list(&place.join("src/clockchip"), CLOCKCHIP, &out.join("clockchip_mods.rs"));
    list(&place.join("src/vic"), VIC, &out.join("vic_mods.rs"));
}

/// Writes one `mod` line for each file, or ends the build with a message.
fn list(folder: &Path, names: &[&str], target: &Path) {
    let mut text = String::new();
    for name in names {
        let file = folder.join(format!("{name}.rs"));
        println!("cargo::rerun-if-changed={}", file.display());
        let Ok(file) = file.canonicalize() else {
            println!(
                "cargo::error=the original source is missing: {} is not there. It is looked for in ../shared/docs/src beside the repository, or where the environment variable {PLACE} says (the folder that holds src/vic).",
                file.display()
            );
            process::exit(1);
        };
        text.push_str(&format!("#[path = {:?}]\npub mod {name};\n", file.display().to_string()));
    }
    fs::write(target, text).expect("the build folder can be written");
}
