//! Times the run of rgrow's Rust as it is, with its frontiers in hash maps. `bench/run` puts this file beside the copies that
//! `oracle/build` made and compiles it there as a program of its own; systems are read and built by the oracle's modules.

#[allow(warnings)]
mod models;
#[allow(warnings)]
mod units;
#[allow(warnings)]
mod utils;

#[allow(dead_code)]
mod base;
mod canvas;
mod colors;
#[allow(dead_code)]
mod state;
#[allow(dead_code)]
mod system;

#[allow(dead_code)]
mod cases;
#[allow(dead_code)]
mod energy;
#[allow(dead_code)]
mod reach;
#[allow(dead_code)]
mod systems;

mod timing;

use cases::{Case, Stop};
use models::sdc2d::SDC2DSquare;
use models::sdc2d_thermo::ask;
use systems::{Constraints, Lent, Lists};

/// The system with its concentrations, and the lists of its bays.
fn built(line: &str) -> Result<(SDC2DSquare, Option<Lists>), Stop> {
    let case = Case::read(line.as_bytes())?;
    let lent = Lent::read(&case)?;
    lent.check()?;
    let lists =
        Constraints::read(&case)?.map(|lists| lists.lists(lent.rows as usize, lent.cols as usize)).transpose()?;
    Ok((energy::stocked(&lent, energy::concentrations(&lent.logs)?), lists))
}

fn main() {
    let (file, floor) = timing::arguments();
    for line in std::fs::read_to_string(file).expect("the file of systems").lines() {
        let (system, lists) = built(line).ok().expect("a system that the Rust can be asked");
        let mut energy = f64::NAN;
        let all = timing::timed(floor, || energy = ask::mfe_configuration(&system, lists.as_deref()).1);
        println!("{}", timing::line(energy, "-", &all));
    }
}
