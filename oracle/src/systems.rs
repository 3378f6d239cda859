//! The calls on systems: legal strands (sdc2d_thermo.rs) and bonds (sdc2d.rs). A system arrives as numbers: the Rust
//! makes one of its size without names of glues, and the numbers go into its public fields. The length of the lent sets
//! is the port's own: its field is read, and passed over.

use crate::cases::{bits, float, listed, number, Asked, Case, Stop};
use crate::models::sdc2d::{SDC2DParams, SDC2DSquare};
use crate::models::sdc2d_thermo::ask;
use crate::reach::strand;
use crate::units::{Kelvin, Molar};
use ndarray::prelude::Array2;
use std::collections::HashMap;

/// A longer side is not put to the Rust, because the grid would have to be built; a set is written from 128 bits.
const LONGEST_SIDE: u64 = 256;
const MOST_STRANDS: u64 = 128;
/// The longest matrix that a case can lend.
const LONGEST_MATRIX: u64 = 66_049;

/// The constraints as the Rust takes them: of each row, of each column, a list of strands.
pub type Lists = Vec<Vec<Vec<u32>>>;

/// A strand's or a glue's number, a seed's row or column.
pub fn small(value: &[u8]) -> Option<u32> {
    number(value)?.try_into().ok()
}

fn read_only_if(fits: bool) -> Result<(), Stop> {
    fits.then_some(()).ok_or(Stop::Unreadable)
}

/// The Rust can be handed a case only where this holds.
pub fn handed_only_if(fits: bool) -> Result<(), Stop> {
    fits.then_some(()).ok_or(Stop::NoSuchCall)
}

/// A system as a case has it, both matrices filled.
pub struct Lent {
    pub rows: u64,
    pub cols: u64,
    strands: u64,
    glues: u64,
    kelvin: f64,
    strand_glues: Vec<u32>,
    scaffold: Vec<u32>,
    delta_g: Vec<f64>,
    entropy: Vec<f64>,
    pub logs: Vec<f64>,
    seeds: Vec<u32>,
}

impl Lent {
    pub fn read(case: &Case) -> Result<Self, Stop> {
        let (rows, cols) = (case.number("rows")?, case.number("cols")?);
        let (strands, glues) = (case.number("strands")?, case.number("glues")?);
        let (cells, energies) = (case.list("cells", number)?, case.list("energies", float)?);
        read_only_if(cells.len() % 2 == 0 && cells.len() == energies.len())?;
        // A matrix is 0.0 but for its cells; a cell past the end is not written.
        let matrix = |key, which| {
            let length = case.or(key, Case::number, glues.saturating_mul(glues))?;
            read_only_if(length <= LONGEST_MATRIX)?;
            let mut lent = vec![0.0; length as usize];
            for (cell, energy) in cells.chunks(2).zip(energies.chunks(2)) {
                let place = u128::from(cell[0]) * u128::from(glues) + u128::from(cell[1]);
                if place < length.into() {
                    lent[place as usize] = energy[which];
                }
            }
            Ok(lent)
        };
        let (delta_g, entropy) = (matrix("delta_g_length", 0)?, matrix("entropy_length", 1)?);
        let (kelvin, logs) = (case.float("kelvin")?, case.list("logs", float)?);
        let (strand_glues, scaffold) = (case.list("strand_glues", small)?, case.list("scaffold", small)?);
        let seeds = case.list("seeds", small)?;
        Ok(Lent { rows, cols, strands, glues, kelvin, strand_glues, scaffold, delta_g, entropy, logs, seeds })
    }

    /// The Rust can be handed a system that is small enough to be built and has slices as long as its sizes ask. Strand 0
    /// is always there.
    pub fn check(&self) -> Result<(), Stop> {
        handed_only_if((1..=MOST_STRANDS).contains(&self.strands))?;
        handed_only_if(self.rows <= LONGEST_SIDE && self.cols <= LONGEST_SIDE)?;
        handed_only_if(self.strand_glues.len() as u64 == self.strands * 5)?;
        handed_only_if(self.scaffold.len() as u64 == self.rows * self.cols)?;
        let cells = u128::from(self.glues) * u128::from(self.glues);
        handed_only_if(self.delta_g.len() as u128 == cells && self.entropy.len() as u128 == cells)?;
        handed_only_if(self.logs.len() as u64 == self.strands && self.seeds.len() % 3 == 0)
    }

    /// No glue number is past the count.
    pub fn has_known_glues(&self) -> bool {
        self.strand_glues.iter().chain(&self.scaffold).all(|&glue| u64::from(glue) < self.glues)
    }

    /// Sizes, temperature and energies are such as the rules takes; logarithms and seeds aside.
    pub fn is_in_range(&self) -> bool {
        let sides = (1..=32).contains(&self.rows) && (1..=32).contains(&self.cols);
        let counts = (1..=64).contains(&self.strands) && (1..=256).contains(&self.glues);
        let finite = self.delta_g.iter().chain(&self.entropy).all(|energy| energy.is_finite());
        sides && counts && finite && (200.0..=500.0).contains(&self.kelvin)
    }

    /// The bays, row by row.
    fn bays(&self) -> Vec<(usize, usize)> {
        let (rows, cols) = (self.rows as usize, self.cols as usize);
        (0..rows).flat_map(|row| (0..cols).map(move |col| (row, col))).collect()
    }

    /// The Rust's system. Each strand has a concentration of 1: neither legal strands nor bonds depend on it.
    /// Seeds go in by the names that the Rust shows for nameless strands, so it tests them and lets later ones replace
    /// earlier ones itself. The temperature goes in last: this builds the caches anew.
    pub fn square(&self) -> SDC2DSquare {
        let (rows, cols, glues) = (self.rows as usize, self.cols as usize, self.glues as usize);
        let name = |tile: u32| tile.checked_sub(1).map_or("null".to_string(), |place| place.to_string());
        let mut s = SDC2DSquare::from_params(SDC2DParams {
            strands: vec![strand(None, [None; 5]); self.strands as usize - 1],
            scaffold: vec![vec![None; cols]; rows],
            scaffold_concentration: 1.0,
            glue_dg37_ds: HashMap::new(),
            k_f: 1.0,
            temperature: 37.0,
            seed: self.seeds.chunks(3).map(|seed| (seed[0] as usize, seed[1] as usize, name(seed[2]))).collect(),
        });
        for (place, &glue) in self.strand_glues.iter().enumerate() {
            s.strand_glues[(place / 5, place % 5)] = glue as usize;
        }
        for (place, &glue) in self.scaffold.iter().enumerate() {
            s.scaffold[(place / cols, place % cols)] = glue as usize;
        }
        s.delta_g_matrix = Array2::from_elem((glues, glues), 0.0.into());
        s.entropy_matrix = Array2::from_elem((glues, glues), 0.0.into());
        for (place, (&dg, &ds)) in self.delta_g.iter().zip(&self.entropy).enumerate() {
            s.delta_g_matrix[(place / glues, place % glues)] = dg.into();
            s.entropy_matrix[(place / glues, place % glues)] = ds.into();
        }
        s.change_temperature_to(Kelvin(self.kelvin));
        s
    }
}

/// A concentration whose logarithm, as the Rust takes it, has these very bits; where there is none the Rust cannot be
/// asked. So calls that depend on it need no other field than `logs`.
pub fn concentration(log: f64) -> Result<Molar, Stop> {
    let near = log.exp().to_bits();
    let around = (0..4).flat_map(|step| [near.saturating_add(step), near.saturating_sub(step)]);
    let found = around.map(f64::from_bits).find(|concentration| concentration.ln().to_bits() == log.to_bits());
    found.map(Molar::new).ok_or(Stop::NoSuchCall)
}

/// The constraints, where the case has any: offsets and the lists that they cut.
pub struct Constraints {
    offsets: Vec<u64>,
    tiles: Vec<u32>,
}

impl Constraints {
    pub fn read(case: &Case) -> Result<Option<Self>, Stop> {
        let offsets = case.or("offsets", |case, key| case.list(key, number).map(Some), None)?;
        offsets.map(|offsets| Ok(Constraints { offsets, tiles: case.list("tiles", small)? })).transpose()
    }

    /// A list for each bay of the grid, if the offsets cut the tiles into so many.
    pub fn lists(&self, rows: usize, cols: usize) -> Result<Lists, Stop> {
        handed_only_if(self.offsets.len() == rows * cols + 1)?;
        handed_only_if(self.offsets.first() == Some(&0) && self.offsets.last() == Some(&(self.tiles.len() as u64)))?;
        let cut = self.offsets.windows(2).map(|two| self.tiles.get(two[0] as usize..two[1] as usize));
        let lists = cut.collect::<Option<Vec<_>>>().ok_or(Stop::NoSuchCall)?;
        let list = |row: usize, col: usize| lists[row * cols + col].to_vec();
        Ok((0..rows).map(|row| (0..cols).map(|col| list(row, col)).collect()).collect())
    }
}

/// The set of each bay. Where one is empty the line goes on with the first such bay in the order of a run, which would
/// panic there.
pub fn allowed_tiles(case: &Case) -> Result<Asked, Stop> {
    let lent = Lent::read(case)?;
    let constraints = Constraints::read(case)?;
    case.or("sets_length", Case::number, 0)?;
    lent.check()?;
    let (rows, cols) = (lent.rows as usize, lent.cols as usize);
    let lists = constraints.map(|constraints| constraints.lists(rows, cols)).transpose()?;
    Ok(Box::new(move || {
        let s = lent.square();
        let legal = |&(row, col): &(usize, usize)| match &lists {
            None => ask::base_allowed_tiles_at(&s, row, col),
            Some(lists) => ask::constrained_allowed_tiles_at(&s, row, col, Some(lists)),
        };
        let set = |bay| legal(bay).iter().fold(0u128, |set, tile| set | 1 << tile);
        let line = format!("sets {}", listed(&lent.bays().iter().map(set).collect::<Vec<_>>()));
        match ask::scan(rows, cols).iter().find(|bay| legal(bay).is_empty()) {
            None => line,
            Some((row, col)) => format!("{line} first_empty={}", row * cols + col),
        }
    }))
}

/// The bonds of each pair of strands, and of each strand to each bay; strand 0 is left out.
pub fn bonds(case: &Case) -> Result<Asked, Stop> {
    let lent = Lent::read(case)?;
    lent.check()?;
    Ok(Box::new(move || {
        let s = lent.square();
        let strands = 1..lent.strands as u32;
        let pairs: Vec<_> = strands.clone().flat_map(|a| strands.clone().map(move |b| (a, b))).collect();
        let we: Vec<_> = pairs.iter().map(|&(west, east)| bits(s.bond_we(west, east))).collect();
        let ns: Vec<_> = pairs.iter().map(|&(north, south)| bits(s.bond_ns(north, south))).collect();
        let bays = lent.bays();
        let sites = bays.iter().flat_map(|&(row, col)| strands.clone().map(move |tile| (row, col, tile)));
        let scaffold: Vec<_> = sites.map(|(row, col, tile)| bits(s.bond_with_scaffold(row, col, tile))).collect();
        format!("bonds we={} ns={} scaffold={}", listed(&we), listed(&ns), listed(&scaffold))
    }))
}
