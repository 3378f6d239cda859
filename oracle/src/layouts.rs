//! The least-energy run (sdc2d_thermo.rs). The Rust has no ledger: the lengths of the lent tables are read and passed
//! over, and its line is the energy and the layout.

use crate::cases::{bits, listed, Asked, Case, Stop};
use crate::energy::{concentrations, stocked};
use crate::models::sdc2d::SDC2DSquare;
use crate::models::sdc2d_thermo::ask;
use crate::systems::{handed_only_if, Constraints, Lent, Lists};

/// With more rows in all its tables a run is not put to the Rust: it would take too long.
const MOST_ROWS: u64 = 65_536;

/// How many rows the tables of a run have, one after another.
fn rows_of_tables(s: &SDC2DSquare, rows: usize, cols: usize, lists: Option<&Lists>) -> u64 {
    let legal = |&(row, col): &(usize, usize)| {
        ask::constrained_allowed_tiles_at(s, row, col, lists.map(Vec::as_slice)).len() as u64
    };
    let counts: Vec<_> = ask::scan(rows, cols).iter().map(legal).collect();
    let table = |end: usize| {
        let window = &counts[end.saturating_sub(rows.min(cols))..end];
        window.iter().fold(1, |rows: u64, &count| rows.saturating_mul(count))
    };
    (1..=counts.len()).map(table).fold(0, u64::saturating_add)
}

/// The least energy and its layout. A system that the rules refuses with 1 to 3 is not asked: what a run reads of it
/// depends on the rest.
pub fn mfe_configuration(case: &Case) -> Result<Asked, Stop> {
    let lent = Lent::read(case)?;
    let constraints = Constraints::read(case)?;
    let length = case.or("layout_length", |case, key| case.number(key).map(Some), None)?;
    case.or("energies_length", Case::number, 0)?;
    case.or("leaving_length", Case::number, 0)?;
    lent.check()?;
    handed_only_if(lent.is_in_range() && lent.has_known_glues())?;
    let (rows, cols) = (lent.rows as usize, lent.cols as usize);
    handed_only_if(length.unwrap_or(lent.rows * lent.cols) == lent.rows * lent.cols)?;
    let lists = constraints.map(|constraints| constraints.lists(rows, cols)).transpose()?;
    let concentrations = concentrations(&lent.logs)?;
    Ok(Box::new(move || {
        let s = stocked(&lent, concentrations);
        if rows_of_tables(&s, rows, cols, lists.as_ref()) > MOST_ROWS {
            return "none".to_string();
        }
        let (layout, energy) = ask::mfe_configuration(&s, lists.as_deref());
        format!("least {} layout={}", bits(energy), listed(&layout.concat()))
    }))
}
