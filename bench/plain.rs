//! The same run in plain Rust, and its times: the ledger on flat arrays, bonds in tables, nothing allocated in a loop.
//! It is written for speed and proves nothing; the tests of its input are left out, since the systems are sound.

mod systems;
mod timing;

use systems::{Lent, System};

const R: f64 = 1.98720425864083 / 1000.0;

/// Strands of a bay, rising.
struct Legal {
    strands: [u8; 64],
    count: usize,
}

impl Legal {
    fn of(strands: impl Iterator<Item = usize>) -> Legal {
        let mut legal = Legal { strands: [0; 64], count: 0 };
        for strand in strands {
            legal.strands[legal.count] = strand as u8;
            legal.count += 1;
        }
        legal
    }

    fn all(&self) -> &[u8] {
        &self.strands[..self.count]
    }
}

/// Where a strand's glues stand among its five.
const NORTH: usize = 0;
const EAST: usize = 1;
const SOUTH: usize = 2;
const WEST: usize = 3;
const BOTTOM: usize = 4;

fn glue(s: &System, strand: usize, side: usize) -> usize {
    s.strand_glues[strand * 5 + side] as usize
}

/// The bond of two glues in units of R·T.
fn bond(s: &System, a: usize, b: usize) -> f64 {
    let cell = a * s.glues + b;
    (s.delta_g[cell] - (s.kelvin - 310.15) * s.entropy[cell]) / (R * s.kelvin)
}

/// The bonds of all pairs of strands, the one that comes first slowest. Strand 0 has none.
fn bonds(s: &System, first: usize, second: usize) -> Vec<f64> {
    let mut table = vec![0.0; s.strands * s.strands];
    for a in 1..s.strands {
        for b in 1..s.strands {
            table[a * s.strands + b] = bond(s, glue(s, a, first), glue(s, b, second));
        }
    }
    table
}

/// The legal strands of a bay: its seed, or 0 and those that bind it, and of these what its list names.
fn legal(s: &System, bay: usize) -> Legal {
    let at = [(bay / s.cols) as u32, (bay % s.cols) as u32];
    if let Some(seed) = s.seeds.chunks_exact(3).rev().find(|seed| seed[..2] == at) {
        return Legal::of([seed[2] as usize].into_iter().filter(|&strand| listed(s, bay, strand)));
    }
    let scaffold = s.scaffold[bay] as usize;
    let binds = |strand: usize| {
        let cell = scaffold * s.glues + glue(s, strand, BOTTOM);
        s.delta_g[cell] != 0.0 || s.entropy[cell] != 0.0
    };
    Legal::of((0..s.strands).filter(|&strand| (strand == 0 || binds(strand)) && listed(s, bay, strand)))
}

fn listed(s: &System, bay: usize, strand: usize) -> bool {
    if !s.constrained {
        return true;
    }
    let list = &s.tiles[s.offsets[bay]..s.offsets[bay + 1]];
    list.is_empty() || list.contains(&(strand as u32))
}

/// One block from the one before it.
struct Step<'a> {
    before: &'a [f64],
    /// How many rows stay when one strand leaves.
    width: usize,
    leaving: &'a [u8],
    /// How many strands the bay has, and the previous one.
    count: usize,
    previous: usize,
    /// Bay and bond to the previous major line, for each leaving strand and each of the bay's.
    below: &'a [f64],
    /// Bond to the previous bay, for each of its strands and each of the bay's.
    beside: &'a [f64],
}

impl Step<'_> {
    /// The rows of at most N strands, from strand `from` on; N at a time, so that they stay in registers. False where some sum
    /// is minus infinity.
    fn strands<const N: usize>(&self, from: usize, energies: &mut [f64], notes: &mut [u8]) -> bool {
        let count = N.min(self.count - from);
        let few = |table: &[f64]| -> Vec<[f64; N]> {
            let padded = |row: &[f64]| std::array::from_fn(|i| row.get(from + i).copied().unwrap_or(f64::INFINITY));
            table.chunks(self.count).map(padded).collect()
        };
        let (below, beside) = (few(self.below), few(self.beside));
        let (mut u, mut good) = (0, true);
        let energies = energies[from..].chunks_mut(self.count);
        let notes = notes[from..].chunks_mut(self.count);
        for (q, (energies, notes)) in energies.zip(notes).enumerate() {
            let beside = &beside[u];
            let (mut best, mut who) = ([f64::INFINITY; N], [0u64; N]);
            let mut at = q;
            for (a, below) in below.iter().enumerate() {
                let held = self.before[at];
                for i in 0..N {
                    let sum = held + (below[i] + beside[i]);
                    let less = sum < best[i];
                    best[i] = if less { sum } else { best[i] };
                    who[i] = if less { a as u64 } else { who[i] };
                }
                at += self.width;
            }
            for (i, (energy, note)) in energies.iter_mut().zip(notes).enumerate().take(count) {
                *energy = best[i];
                *note = self.leaving[who[i] as usize];
            }
            good &= best.iter().all(|&energy| energy > f64::NEG_INFINITY);
            u = if u + 1 == self.previous { 0 } else { u + 1 };
        }
        good
    }

    /// The whole block. False where some sum is minus infinity.
    fn fill(&self, energies: &mut [f64], notes: &mut [u8]) -> bool {
        (0..self.count).step_by(8).all(|from| match self.count - from {
            1..=2 => self.strands::<2>(from, energies, notes),
            3..=4 => self.strands::<4>(from, energies, notes),
            5..=6 => self.strands::<6>(from, energies, notes),
            _ => self.strands::<8>(from, energies, notes),
        })
    }
}

/// Whether no sum of an entry of each table, strand by strand, is NaN or minus infinity. Entries that are not huge are
/// enough for that; only where one is, all sums are formed.
fn adds_are_good(below: &[f64], beside: &[f64], count: usize) -> bool {
    let small = |table: &[f64]| table.iter().fold(true, |all, &x| all & (x > -1e307));
    let sums = |x: &[f64], y: &[f64]| x.iter().zip(y).all(|(x, y)| x + y > f64::NEG_INFINITY);
    small(below) && small(beside) || below.chunks(count).all(|x| beside.chunks(count).all(|y| sums(x, y)))
}

/// A system with what a run works out once: the sets in scan order, and the bonds along and across major lines.
struct Grid<'a> {
    s: &'a System,
    window: usize,
    sets: Vec<Legal>,
    /// The set that leaves, or stands before, where there is no bay: strand 0, which has no bonds.
    none: Legal,
    major: Vec<f64>,
    minor: Vec<f64>,
}

impl Grid<'_> {
    fn of(s: &System) -> Grid<'_> {
        let (down, across) = (bonds(s, SOUTH, NORTH), bonds(s, EAST, WEST));
        let (major, minor) = if s.cols <= s.rows { (down, across) } else { (across, down) };
        let none = Legal::of([0].into_iter());
        let mut grid = Grid { s, window: s.rows.min(s.cols), sets: Vec::new(), none, major, minor };
        grid.sets = (0..s.rows * s.cols).map(|k| legal(s, grid.bay(k))).collect();
        grid
    }

    /// The row-by-row number of the k-th bay of the scan.
    fn bay(&self, k: usize) -> usize {
        if self.s.cols <= self.s.rows {
            k
        } else {
            k % self.window * self.s.cols + k / self.window
        }
    }

    fn leaving(&self, k: usize) -> &Legal {
        if k < self.window {
            &self.none
        } else {
            &self.sets[k - self.window]
        }
    }

    fn previous(&self, k: usize) -> &Legal {
        if k % self.window == 0 {
            &self.none
        } else {
            &self.sets[k - 1]
        }
    }

    /// What bay k's strands add, in the two tables of its `Step`. A bond of strand 0 is 0.0, and adding that to a sum is
    /// adding nothing, since no sum is minus zero.
    fn adds(&self, k: usize, below: &mut Vec<f64>, beside: &mut Vec<f64>) {
        let (s, set) = (self.s, self.sets[k].all());
        let scaffold = s.scaffold[self.bay(k)] as usize;
        let site = |t: usize| if t == 0 { 0.0 } else { bond(s, scaffold, glue(s, t, BOTTOM)) - s.logs[t] };
        let mut sites = [0.0; 64];
        sites.iter_mut().zip(set).for_each(|(cell, &t)| *cell = site(t as usize));
        below.clear();
        for &left in self.leaving(k).all() {
            let bonds = &self.major[left as usize * s.strands..][..s.strands];
            below.extend(sites.iter().zip(set).map(|(site, &t)| site + bonds[t as usize]));
        }
        beside.clear();
        for &neighbour in self.previous(k).all() {
            let bonds = &self.minor[neighbour as usize * s.strands..][..s.strands];
            beside.extend(set.iter().map(|&t| bonds[t as usize]));
        }
    }

    /// Writes all blocks, one behind the other, and answers where the last one begins and ends; nothing where a sum is NaN
    /// or minus infinity.
    fn fill(&self, energies: &mut [f64], notes: &mut [u8]) -> Option<(usize, usize)> {
        let (mut below, mut beside) = (Vec::new(), Vec::new());
        let (mut from, mut end) = (0, 0);
        for (k, set) in self.sets.iter().enumerate() {
            self.adds(k, &mut below, &mut beside);
            if !adds_are_good(&below, &beside, set.count) {
                return None;
            }
            let (done, rest) = energies.split_at_mut(end);
            let before: &[f64] = if k == 0 { &[0.0] } else { &done[from..] };
            let (leaving, previous) = (self.leaving(k).all(), self.previous(k).count);
            let (width, count) = (before.len() / leaving.len(), set.count);
            let rows = width * count;
            let step = Step { before, width, leaving, count, previous, below: &below, beside: &beside };
            if !step.fill(&mut rest[..rows], &mut notes[end..end + rows]) {
                return None;
            }
            (from, end) = (end, end + rows);
        }
        Some((from, end))
    }

    /// Follows the notes from a row of the last block, which has `rows` rows and stands before `end`, to the first bay.
    fn trace(&self, mut row: usize, mut rows: usize, mut end: usize, notes: &[u8], layout: &mut [u32]) {
        for (k, set) in self.sets.iter().enumerate().rev() {
            layout[self.bay(k)] = u32::from(set.strands[row % set.count]);
            let (leaving, width) = (self.leaving(k), rows / set.count);
            let note = notes[end - rows + row];
            let position = leaving.all().iter().position(|&strand| strand == note).expect("a strand that left");
            end -= rows;
            row = position * width + row / set.count;
            rows = width * leaving.count;
        }
    }
}

/// The least energy in kcal/mol, the layout and the ledger; nothing where a sum is NaN or minus infinity.
fn run(s: &System, lent: &mut Lent) -> Option<f64> {
    let grid = Grid::of(s);
    let (from, end) = grid.fill(&mut lent.energies, &mut lent.leaving)?;
    let last = &lent.energies[from..end];
    let (mut row, mut least) = (0, last[0]);
    for (i, &energy) in last.iter().enumerate() {
        if energy < least {
            (row, least) = (i, energy);
        }
    }
    grid.trace(row, last.len(), end, &lent.leaving, &mut lent.layout);
    Some(least * (R * s.kelvin))
}

fn main() {
    let (file, floor) = timing::arguments();
    for system in System::all(&file) {
        let mut lent = Lent::to(&system);
        let mut energy = f64::NAN;
        let all = timing::timed(floor, || energy = run(&system, &mut lent).expect("an energy"));
        println!("{}", timing::line(energy, &format!("{:016x}", lent.sum()), &all));
    }
}
