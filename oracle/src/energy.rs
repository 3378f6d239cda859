//! The calls on layouts (sdc2d_thermo.rs). The system is that of the calls on systems, with the concentrations put in.

use crate::cases::{bits, Asked, Case, Stop};
use crate::models::sdc2d::SDC2DSquare;
use crate::systems::{concentration, handed_only_if, small, Lent};
use crate::units::Molar;

/// The logarithms for which a concentration is looked for: elsewhere some have one and some have none.
fn is_looked_for(log: f64) -> bool {
    log == f64::NEG_INFINITY || log.to_bits() == 0 || (1.0..=700.0).contains(&log.abs())
}

/// The concentration of each strand but 0, whose logarithm nothing reads.
pub fn concentrations(logs: &[f64]) -> Result<Vec<Molar>, Stop> {
    let named = logs.get(1..).unwrap_or_default();
    handed_only_if(named.iter().all(|&log| is_looked_for(log)))?;
    named.iter().map(|&log| concentration(log)).collect()
}

/// The Rust's system with these concentrations.
pub fn stocked(lent: &Lent, concentrations: Vec<Molar>) -> SDC2DSquare {
    let mut s = lent.square();
    for (place, concentration) in concentrations.into_iter().enumerate() {
        s.strand_concentration[place + 1] = concentration;
    }
    s
}

/// The energy of a layout. Which glues are read depends on the layout, so a system with one past the count is not asked.
pub fn state_g(case: &Case) -> Result<Asked, Stop> {
    let lent = Lent::read(case)?;
    let layout = case.list("layout", small)?;
    lent.check()?;
    handed_only_if(lent.has_known_glues())?;
    let concentrations = concentrations(&lent.logs)?;
    Ok(Box::new(move || {
        let s = stocked(&lent, concentrations);
        let rows: Vec<_> = layout.chunks(lent.cols as usize).map(<[u32]>::to_vec).collect();
        format!("energy {}", bits(s.state_g(&rows)))
    }))
}
