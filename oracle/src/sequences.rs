//! The calls on sequences: `utils.rs`.

use crate::cases::{bits, utf8, Asked, Case, Stop};
use crate::units::{KcalPerMol, KcalPerMolKelvin, Kelvin};
use crate::utils;

fn base_energy((dg, ds): (KcalPerMol, KcalPerMolKelvin)) -> String {
    format!("base_energy {} {}", bits(dg.into()), bits(ds.into()))
}

pub fn string_dna_dg_ds(case: &Case) -> Result<Asked, Stop> {
    let dna = utf8(case.text("dna")?)?;
    Ok(Box::new(move || base_energy(utils::string_dna_dg_ds(&dna))))
}

/// The temperature goes in as a `Kelvin`, which the Rust uses as it is.
pub fn string_dna_delta_g(case: &Case) -> Result<Asked, Stop> {
    let (dna, kelvin) = (case.text("dna")?, case.float("kelvin")?);
    let dna = utf8(dna)?;
    Ok(Box::new(move || {
        let energy = utils::string_dna_delta_g(&dna, Kelvin::new(kelvin));
        format!("energy {}", bits(energy.into()))
    }))
}

/// Added by the port: the Rust has no such call, but a line that is no case is still told.
pub fn string_dna_hundredths(case: &Case) -> Result<Asked, Stop> {
    case.text("dna")?;
    Err(Stop::NoSuchCall)
}

pub fn sequence_pair_str_dg_ds(case: &Case) -> Result<Asked, Stop> {
    let (a, b) = (case.text("a")?, case.text("b")?);
    let (a, b) = (utf8(a)?, utf8(b)?);
    Ok(Box::new(move || base_energy(utils::sequence_pair_str_dg_ds(&a, &b))))
}
