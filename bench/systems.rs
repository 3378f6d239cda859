//! Reads the systems that are measured from the case file that `systems.py` writes.

use std::collections::HashMap;

/// A system and its constraints as the run is lent them: flat slices, bays row by row.
pub struct System {
    pub rows: usize,
    pub cols: usize,
    pub strands: usize,
    pub glues: usize,
    pub kelvin: f64,
    /// North, east, south, west, bottom of each strand.
    pub strand_glues: Vec<u32>,
    pub scaffold: Vec<u32>,
    pub delta_g: Vec<f64>,
    pub entropy: Vec<f64>,
    pub logs: Vec<f64>,
    /// Row, column and strand of each seed.
    pub seeds: Vec<u32>,
    pub constrained: bool,
    pub offsets: Vec<usize>,
    pub tiles: Vec<u32>,
    /// How many rows the ledger has.
    pub need: usize,
}

fn list<T>(value: &str, item: impl Fn(&str) -> T) -> Vec<T> {
    value.split(',').filter(|_| !value.is_empty()).map(item).collect()
}

fn number<T: std::str::FromStr>(value: &str) -> T {
    value.parse().ok().expect("a number")
}

fn float(value: &str) -> f64 {
    f64::from_bits(u64::from_str_radix(value, 16).expect("a float's bits"))
}

impl System {
    fn read(line: &str) -> System {
        let fields: HashMap<&str, &str> = line.split(' ').filter_map(|word| word.split_once('=')).collect();
        let glues: usize = number(fields["glues"]);
        let cells: Vec<usize> = list(fields["cells"], number);
        let energies = list(fields["energies"], float);
        let (mut delta_g, mut entropy) = (vec![0.0; glues * glues], vec![0.0; glues * glues]);
        for (cell, energy) in cells.chunks(2).zip(energies.chunks(2)) {
            delta_g[cell[0] * glues + cell[1]] = energy[0];
            entropy[cell[0] * glues + cell[1]] = energy[1];
        }
        let under_lists = |key| fields.get(key).copied().unwrap_or_default();
        System {
            rows: number(fields["rows"]),
            cols: number(fields["cols"]),
            strands: number(fields["strands"]),
            glues,
            kelvin: float(fields["kelvin"]),
            strand_glues: list(fields["strand_glues"], number),
            scaffold: list(fields["scaffold"], number),
            delta_g,
            entropy,
            logs: list(fields["logs"], float),
            seeds: list(fields["seeds"], number),
            constrained: fields.contains_key("offsets"),
            offsets: list(under_lists("offsets"), number),
            tiles: list(under_lists("tiles"), number),
            need: number(fields["need"]),
        }
    }

    pub fn all(file: &str) -> Vec<System> {
        std::fs::read_to_string(file).expect("the file of systems").lines().map(System::read).collect()
    }
}

/// What a run is lent to be filled.
pub struct Lent {
    pub layout: Vec<u32>,
    pub energies: Vec<f64>,
    pub leaving: Vec<u8>,
}

impl Lent {
    /// Tables of the very need, with something else in them than the run leaves.
    pub fn to(system: &System) -> Lent {
        let bays = system.rows * system.cols;
        Lent { layout: vec![77; bays], energies: vec![7.0; system.need], leaving: vec![77; system.need] }
    }

    /// One number for all that the run left.
    pub fn sum(&self) -> u64 {
        let layout = self.layout.iter().map(|&tile| u64::from(tile));
        let energies = self.energies.iter().map(|energy| energy.to_bits());
        let leaving = self.leaving.iter().map(|&tile| u64::from(tile));
        layout
            .chain(energies)
            .chain(leaving)
            .fold(0xcbf2_9ce4_8422_2325, |sum, word| (sum ^ word).wrapping_mul(0x0000_0100_0000_01b3).rotate_left(23))
    }
}
