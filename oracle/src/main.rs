//! The oracle: reads a case file (docs/CASES.md) from standard input, asks the Rust of rgrow, and writes one answer
//! line a case. `--constants` and `--reach` ask for a few known things instead; see README.md.
//!
//! The modules in the first group are rgrow's own files, byte for byte; those in the second are our stand-ins for what
//! these files import; the rest is ours.

#[allow(warnings)]
mod models;
#[allow(warnings)]
mod units;
#[allow(warnings)]
mod utils;

#[allow(dead_code)]
mod base;
mod canvas;
mod colors;
#[allow(dead_code)]
mod state;
#[allow(dead_code)]
mod system;

mod cases;
mod energy;
mod layouts;
mod names;
mod reach;
mod sequences;
mod systems;

use cases::{Asked, Case, Stop};
use std::io::{Read, Write};
use std::panic::{catch_unwind, AssertUnwindSafe};

/// A call reads its fields and hands back the question; only the question itself runs the Rust.
type Call = fn(&Case) -> Result<Asked, Stop>;

/// Every call that a case may name. A new one is a function and a row.
const CALLS: &[(&str, Call)] = &[
    ("string_dna_dg_ds", sequences::string_dna_dg_ds),
    ("string_dna_delta_g", sequences::string_dna_delta_g),
    ("string_dna_hundredths", sequences::string_dna_hundredths),
    ("sequence_pair_str_dg_ds", sequences::sequence_pair_str_dg_ds),
    ("self_and_inverse", names::self_and_inverse),
    ("register", names::register),
    ("energy_keys", names::energy_keys),
    ("tile_name", names::tile_name),
    ("seeds_by_name", names::seeds_by_name),
    ("allowed_tiles", systems::allowed_tiles),
    ("bonds", systems::bonds),
    ("state_g", energy::state_g),
    ("mfe_configuration", layouts::mfe_configuration),
];

/// The answer line of a case. A panic counts as the Rust's only while the question runs.
fn answer(line: &[u8]) -> String {
    let asked = Case::read(line).and_then(|case| {
        let named = CALLS.iter().find(|(name, _)| name.as_bytes() == case.call);
        named.ok_or(Stop::Unreadable).and_then(|(_, call)| call(&case))
    });
    match asked {
        Ok(question) => catch_unwind(AssertUnwindSafe(question)).unwrap_or("panic".to_string()),
        Err(Stop::Unreadable) => "unreadable".to_string(),
        Err(Stop::NoSuchCall) => "none".to_string(),
    }
}

fn main() -> std::io::Result<()> {
    match std::env::args().nth(1).as_deref() {
        None => {}
        Some("--constants") => return reach::constants(&mut std::io::stdout()),
        Some("--reach") => return reach::reach(&mut std::io::stdout()),
        Some(other) => panic!("oracle: {other} is no argument of the oracle's"),
    }
    std::panic::set_hook(Box::new(|_| {}));
    let mut text = Vec::new();
    std::io::stdin().read_to_end(&mut text)?;
    let mut out = std::io::BufWriter::new(std::io::stdout());
    for line in text.split(|&byte| byte == b'\n') {
        if !line.is_empty() && line[0] != b'#' {
            writeln!(out, "{}", answer(line))?;
        }
    }
    out.flush()
}
