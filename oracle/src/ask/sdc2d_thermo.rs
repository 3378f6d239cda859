//! Added to the copy of `sdc2d_thermo.rs` as its child `ask`, and so able to call what is private there. Each function
//! hands its arguments on and adds nothing; `scan` goes through the two loops of a run.

use super::{SDC2DSquare, Tile};

/// `R` of this file, which is not `R_VAL` of units.rs by name.
pub fn r() -> f64 {
    super::R
}

pub fn rtval(s: &SDC2DSquare) -> f64 {
    s.rtval()
}

pub fn base_allowed_tiles_at(s: &SDC2DSquare, row: usize, col: usize) -> Vec<Tile> {
    s.base_allowed_tiles_at(row, col)
}

pub fn constrained_allowed_tiles_at(
    s: &SDC2DSquare,
    row: usize,
    col: usize,
    constraints: Option<&[Vec<Vec<Tile>>]>,
) -> Vec<Tile> {
    s.constrained_allowed_tiles_at(row, col, constraints)
}

pub fn site_beta_energy(s: &SDC2DSquare, row: usize, col: usize, tile: Tile) -> f64 {
    s.site_beta_energy(row, col, tile)
}

pub fn edge_beta_between(s: &SDC2DSquare, a: ((usize, usize), Tile), b: ((usize, usize), Tile)) -> f64 {
    s.edge_beta_between(a.0, a.1, b.0, b.1)
}

pub fn state_beta_energy(s: &SDC2DSquare, state: &[Vec<Tile>]) -> f64 {
    s.state_beta_energy(state)
}

pub fn mfe_configuration(s: &SDC2DSquare, constraints: Option<&[Vec<Vec<Tile>>]>) -> (Vec<Vec<Tile>>, f64) {
    s.mfe_configuration_inner(constraints)
}

pub fn log_partition_function(s: &SDC2DSquare, constraints: Option<&[Vec<Vec<Tile>>]>) -> f64 {
    s.log_partition_function_inner(constraints)
}

/// The bays in the order in which a run goes through them.
pub fn scan(rows: usize, cols: usize) -> Vec<(usize, usize)> {
    let order = super::ScanOrder::new(rows, cols);
    let bays = (0..order.major_len).flat_map(|major| (0..order.minor_len).map(move |minor| (major, minor)));
    bays.map(|(major, minor)| order.site(major, minor)).collect()
}
