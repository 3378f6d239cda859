//! The calls on names: `self_and_inverse` of sdc_common.rs, and what `from_params` of sdc2d.rs registers, shows and seeds.
//! Lent tables and the numerals are the port's own: their fields are read, and passed over.

use crate::canvas::PointSafe2;
use crate::cases::{bits, byte, float, listed, number, utf8, written, Asked, Case, Stop};
use crate::models::sdc2d::{SDC2DParams, SDC2DSquare, SDC2DStrand};
use crate::models::sdc_common::{self, GsOrSeq, RefOrPair};
use crate::reach::strand;
use ndarray::prelude::Array2;
use std::collections::HashMap;

type Names = Vec<Option<String>>;

/// A grid with a longer side is not put to the Rust, because it would have to be built.
const LONGEST_SIDE: u64 = 256;

/// The Rust can be handed a case only where this holds.
fn only_if(fits: bool) -> Result<(), Stop> {
    fits.then_some(()).ok_or(Stop::NoSuchCall)
}

/// The entries of a text: so many, with offsets that neither fall nor overrun it.
fn entries<'a>(text: &'a [u8], offsets: &[u64], count: u128) -> Result<Vec<&'a [u8]>, Stop> {
    only_if(offsets.len() as u128 == count + 1)?;
    only_if(offsets.iter().all(|&offset| offset <= text.len() as u64))?;
    let cut = offsets.windows(2).map(|two| text.get(two[0] as usize..two[1] as usize));
    cut.collect::<Option<_>>().ok_or(Stop::NoSuchCall)
}

/// So many bytes, each 0 or 1.
fn flags(bytes: &[u8], count: usize) -> Result<(), Stop> {
    only_if(bytes.len() == count && bytes.iter().all(|&byte| byte <= 1))
}

/// A text of names as a case has it.
struct Lent {
    text: Vec<u8>,
    offsets: Vec<u64>,
    present: Vec<u8>,
}

impl Lent {
    fn read(case: &Case) -> Result<Self, Stop> {
        let (text, offsets) = (case.text("text")?, case.list("offsets", number)?);
        Ok(Lent { text, offsets, present: case.list("present", byte)? })
    }

    /// The same as the Rust takes it; what stands under an absent name is not read.
    fn names(&self, count: u128) -> Result<Names, Stop> {
        let entries = entries(&self.text, &self.offsets, count)?;
        flags(&self.present, entries.len())?;
        let names = entries.iter().zip(&self.present);
        names.map(|(name, &present)| (present == 1).then(|| utf8(name.to_vec())).transpose()).collect()
    }

    /// Strands of these names and no glues. Entry 0 is the empty strand's, which the Rust names `null` itself.
    fn strands(&self, count: u64) -> Result<Vec<SDC2DStrand>, Stop> {
        let names = self.names(count.into())?;
        let (empty, others) = names.split_first().ok_or(Stop::NoSuchCall)?;
        only_if(empty.as_deref() == Some("null"))?;
        Ok(others.iter().map(|name| strand(name.as_deref(), [None; 5])).collect())
    }
}

/// A system of these strands on this scaffold, with no keys and no seeds.
fn params(strands: Vec<SDC2DStrand>, scaffold: Vec<Names>) -> SDC2DParams {
    let (glue_dg37_ds, seed) = (HashMap::new(), Vec::new());
    SDC2DParams { strands, scaffold, scaffold_concentration: 1.0, glue_dg37_ds, k_f: 1.0, temperature: 37.0, seed }
}

/// Rows and columns, of a grid that is small enough to be built.
fn grid(rows: u64, cols: u64) -> Result<(usize, usize), Stop> {
    only_if(rows <= LONGEST_SIDE && cols <= LONGEST_SIDE)?;
    Ok((rows as usize, cols as usize))
}

/// Five glues a strand, in the order of the Rust's registering: north, east, south, west, bottom.
fn strands_of<'a>(glues: &[Option<&'a str>]) -> Vec<SDC2DStrand> {
    let five = |some: &[Option<&'a str>]| [0, 1, 2, 3, 4].map(|side| some.get(side).copied().flatten());
    glues.chunks(5).map(|some| strand(None, five(some))).collect()
}

pub fn self_and_inverse(case: &Case) -> Result<Asked, Stop> {
    let name = utf8(case.text("name")?)?;
    Ok(Box::new(move || {
        let (is_from, base, _) = sdc_common::self_and_inverse(&name);
        format!("base {} {}", written(base.as_bytes()), if is_from { "base" } else { "inverse" })
    }))
}

pub fn register(case: &Case) -> Result<Asked, Stop> {
    let (rows, cols, strands) = (case.number("rows")?, case.number("cols")?, case.number("strands")?);
    let lent = Lent::read(case)?;
    for table in ["glues_length", "scaffold_length", "bases_length"] {
        case.or(table, Case::number, 0)?;
    }
    let (rows, cols) = grid(rows, cols)?;
    let others = strands.checked_sub(1).ok_or(Stop::NoSuchCall)?;
    let names = lent.names(u128::from(others) * 5 + (rows * cols) as u128)?;
    let (glues, bays) = names.split_at(names.len() - rows * cols);
    let strands = strands_of(&glues.iter().map(Option::as_deref).collect::<Vec<_>>());
    let scaffold = (0..rows).map(|row| bays[row * cols..][..cols].to_vec()).collect();
    Ok(Box::new(move || registered(&SDC2DSquare::from_params(params(strands, scaffold)), &lent.offsets)))
}

fn row_by_row<T: Copy>(table: &Array2<T>) -> Vec<T> {
    (0..table.nrows()).flat_map(|i| (0..table.ncols()).map(move |j| table[(i, j)])).collect()
}

/// The Rust has the bases' names and no place for them: base j stands where the first entry begins that got one of its two
/// numbers, and is as long as the Rust's name for the first of them.
fn registered(s: &SDC2DSquare, offsets: &[u64]) -> String {
    let (glues, scaffold) = (row_by_row(&s.strand_glues), row_by_row(&s.scaffold));
    let count = s.glue_names.len() / 2;
    let entries = [&glues[5..], &scaffold].concat();
    let first = |j: usize| entries.iter().position(|&glue| glue == 2 * j + 1 || glue == 2 * j + 2);
    let base = |j: usize| first(j).map(|entry| [offsets[entry], s.glue_names[2 * j + 1].len() as u64]);
    let bases: Vec<u64> = (0..count).filter_map(base).flatten().collect();
    format!("registered {count} glues={} scaffold={} bases={}", listed(&glues), listed(&scaffold), listed(&bases))
}

struct Key {
    first: String,
    second: Option<String>,
    energy: GsOrSeq,
}

impl Key {
    fn given(&self) -> (RefOrPair, GsOrSeq) {
        let key = match &self.second {
            None => RefOrPair::Ref(self.first.clone()),
            Some(second) => RefOrPair::Pair(self.first.clone(), second.clone()),
        };
        (key, self.energy.clone())
    }

    /// The names of the two glues that the key joins, sorted: keys with the same two meet on the same cells.
    fn joined(&self) -> [String; 2] {
        let mut names = match &self.second {
            None => {
                let (_, base, inverse) = sdc_common::self_and_inverse(&self.first);
                [base, inverse]
            }
            Some(second) => [&self.first, second].map(|name| {
                let (is_from, base, inverse) = sdc_common::self_and_inverse(name);
                if is_from {
                    base
                } else {
                    inverse
                }
            }),
        };
        names.sort();
        names
    }
}

pub fn energy_keys(case: &Case) -> Result<Asked, Stop> {
    let (text, offsets) = (case.text("text")?, case.list("offsets", number)?);
    let (paired, kinds) = (case.list("paired", byte)?, case.list("kinds", byte)?);
    let numbers = case.list("numbers", float)?;
    let (sequences, sequence_offsets) = (case.text("sequences")?, case.list("sequence_offsets", number)?);
    let (bases, count) = (case.list("bases", number)?, case.number("count")?);
    let length = case.or("bases_length", Case::number, 254)?.max(bases.len() as u64);
    case.or("side", Case::number, 0)?;

    let names = entries(&text, &offsets, 2 * kinds.len() as u128)?;
    let sequences = entries(&sequences, &sequence_offsets, kinds.len() as u128)?;
    flags(&paired, kinds.len())?;
    flags(&kinds, kinds.len())?;
    only_if(numbers.len() == 2 * kinds.len() && count <= length / 2)?;
    let bases = base_names(&text, &bases, count)?;
    let owned = |name: &[u8]| utf8(name.to_vec());
    let key = |k: usize| {
        let second = (paired[k] == 1).then(|| owned(names[2 * k + 1])).transpose()?;
        let energy = match kinds[k] {
            0 => GsOrSeq::GS((numbers[2 * k], numbers[2 * k + 1])),
            _ => GsOrSeq::Seq(owned(sequences[k])?),
        };
        Ok(Key { first: owned(names[2 * k])?, second, energy })
    };
    let keys = (0..kinds.len()).map(key).collect::<Result<Vec<_>, Stop>>()?;
    Ok(Box::new(move || with_keys(&bases, &keys)))
}

/// The names of a base list. The Rust makes its own, so only one that registering gives can be put to it: different names
/// without stars at their ends. Places that the list does not have are 0.
fn base_names(text: &[u8], bases: &[u64], count: u64) -> Result<Vec<String>, Stop> {
    let place = |at: u64| bases.get(at as usize).copied().unwrap_or(0) as usize;
    let mut names = Vec::new();
    for j in 0..count {
        let (from, length) = (place(2 * j), place(2 * j + 1));
        let name = from.checked_add(length).and_then(|end| text.get(from..end));
        let name = utf8(name.ok_or(Stop::NoSuchCall)?.to_vec())?;
        only_if(!name.ends_with('*') && !names.contains(&name))?;
        names.push(name);
    }
    Ok(names)
}

/// The bases are the glues of strands, each once, so that base j gets 2j + 1 and 2j + 2. The Rust is asked with all keys, of
/// equal ones the last. Where several keys meet on a cell it walks them by hash, so its answer is the one to the last alone.
fn with_keys(bases: &[String], keys: &[Key]) -> String {
    let ask = |glue_dg37_ds| {
        let strands = strands_of(&bases.iter().map(|name| Some(name.as_str())).collect::<Vec<_>>());
        SDC2DSquare::from_params(SDC2DParams { glue_dg37_ds, ..params(strands, vec![vec![None]]) })
    };
    let all = ask(keys.iter().map(Key::given).collect());
    let last: HashMap<_, _> = keys.iter().map(|key| (key.joined(), key)).collect();
    if last.len() == keys.len() {
        return matrices(&all);
    }
    matrices(&ask(last.into_values().map(Key::given).collect()))
}

fn matrices(s: &SDC2DSquare) -> String {
    let side = s.delta_g_matrix.nrows();
    let cell = |at: (usize, usize)| {
        let (dg, ds): (f64, f64) = (s.delta_g_matrix[at].into(), s.entropy_matrix[at].into());
        let zero = dg == 0.0 && ds == 0.0;
        (!zero).then(|| format!(" {},{}={},{}", at.0, at.1, bits(dg), bits(ds)))
    };
    let cells: String = (0..side).flat_map(|i| (0..side).map(move |j| (i, j))).filter_map(cell).collect();
    format!("matrices{cells}")
}

pub fn tile_name(case: &Case) -> Result<Asked, Stop> {
    let (strands, lent, tile) = (case.number("strands")?, Lent::read(case)?, case.number("tile")?);
    case.or("numerals", Case::text, vec![])?;
    let strands = lent.strands(strands)?;
    Ok(Box::new(move || {
        let s = SDC2DSquare::from_params(params(strands, vec![vec![None]]));
        format!("name {}", written(s.strand_names[tile as usize].as_bytes()))
    }))
}

pub fn seeds_by_name(case: &Case) -> Result<Asked, Stop> {
    let (rows, cols, strands) = (case.number("rows")?, case.number("cols")?, case.number("strands")?);
    let (lent, places) = (Lent::read(case)?, case.list("places", number)?);
    let (seed_text, seed_offsets) = (case.text("seed_text")?, case.list("seed_offsets", number)?);
    case.or("numerals", Case::text, vec![])?;
    case.or("seeds_length", Case::number, 0)?;

    let (rows, cols) = grid(rows, cols)?;
    let strands = lent.strands(strands)?;
    only_if(places.len() % 2 == 0)?;
    let names = entries(&seed_text, &seed_offsets, places.len() as u128 / 2)?;
    let seed = |(bay, name): (&[u64], &&[u8])| Ok((bay[0] as usize, bay[1] as usize, utf8(name.to_vec())?));
    let seeds = places.chunks(2).zip(&names).map(seed).collect::<Result<Vec<_>, Stop>>()?;
    Ok(Box::new(move || seeded(&strands, &vec![vec![None; cols]; rows], &seeds)))
}

/// Each seed is asked about alone, because of several on one bay the Rust shows one. That this is the last, and that nothing
/// else is seeded, is seen from all of them together.
fn seeded(strands: &[SDC2DStrand], scaffold: &[Names], seeds: &[(usize, usize, String)]) -> String {
    let ask = |seeds: &[_]| {
        let params = params(strands.to_vec(), scaffold.to_vec());
        SDC2DSquare::from_params(SDC2DParams { seed: seeds.to_vec(), ..params }).seed
    };
    let together = ask(seeds);
    let (mut last, mut line) = (HashMap::new(), Vec::new());
    for seed in seeds {
        let bay = PointSafe2((seed.0, seed.1));
        if let Some(&tile) = ask(std::slice::from_ref(seed)).get(&bay) {
            last.insert(bay, tile);
            line.extend([seed.0, seed.1, tile as usize]);
        }
    }
    let also = if together == last { "" } else { " and others together" };
    format!("seeds {}{also}", listed(&line))
}
