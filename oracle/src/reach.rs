//! Shows that what later calls need can be reached: a system made from names and one made from numbers, what
//! `from_params` registered, and every private method that `ask` opens. `oracle/test` knows the answers.

use crate::canvas::PointSafe2;
use crate::cases::bits;
use crate::models::sdc2d::{SDC2DParams, SDC2DSquare, SDC2DStrand};
use crate::models::sdc2d_thermo::ask;
use crate::models::sdc_common::{GsOrSeq, RefOrPair};
use crate::systems;
use crate::units::{self, Celsius, Kelvin, Temperature};
use ndarray::prelude::Array2;
use std::collections::HashMap;
use std::io::{Result, Write};

/// The constants that the rules states as facts about the Rust.
pub fn constants(out: &mut impl Write) -> Result<()> {
    writeln!(out, "R_VAL {}", bits(units::ask::r_val()))?;
    writeln!(out, "R {}", bits(ask::r()))?;
    writeln!(out, "R_as_written {}", bits(1.98720425864083 / 1000.0))?;
    writeln!(out, "celsius_37 {}", bits(Celsius(37.0).to_kelvin_m()))
}

/// A strand of concentration 1, whose logarithm is 0.
pub fn strand(name: Option<&str>, glues: [Option<&str>; 5]) -> SDC2DStrand {
    let [north_glue, east_glue, south_glue, west_glue, bottom_glue] = glues.map(|glue| glue.map(String::from));
    let (name, color) = (name.map(String::from), None);
    SDC2DStrand { name, color, concentration: 1.0, north_glue, east_glue, south_glue, west_glue, bottom_glue }
}

/// One row of two bays, two strands that bind one bay each and bind each other; bay 1 is seeded.
fn named() -> SDC2DSquare {
    let key = |name: &str| RefOrPair::Ref(name.to_string());
    let pair = |a: &str, b: &str| RefOrPair::Pair(a.to_string(), b.to_string());
    SDC2DSquare::from_params(SDC2DParams {
        strands: vec![
            strand(Some("left"), [None, Some("j"), None, None, Some("p*")]),
            strand(None, [None, None, None, Some("j*"), Some("q")]),
        ],
        scaffold: vec![vec![Some("p".to_string()), Some("r".to_string())]],
        scaffold_concentration: 1.0,
        glue_dg37_ds: HashMap::from([
            (key("p"), GsOrSeq::GS((-1.0, 0.0))),
            (pair("q", "r"), GsOrSeq::Seq("AC".to_string())),
            (key("j*"), GsOrSeq::GS((-3.0, -0.5))),
        ]),
        k_f: 1.0,
        temperature: 37.0,
        seed: vec![(0, 1, "1".to_string())],
    })
}

/// A system given by numbers alone: `from_params` of a nameless one, then its public fields, then the temperature in
/// kelvin, which builds the caches anew. One bay, one strand, a bond of `dg` and `ds`.
fn numbered(dg: f64, ds: f64, kelvin: f64) -> SDC2DSquare {
    let mut s = SDC2DSquare::from_params(SDC2DParams {
        strands: vec![strand(None, [None; 5])],
        scaffold: vec![vec![None]],
        scaffold_concentration: 1.0,
        glue_dg37_ds: HashMap::new(),
        k_f: 1.0,
        temperature: 37.0,
        seed: vec![],
    });
    s.strand_glues[(1, 4)] = 1;
    s.scaffold[(0, 0)] = 1;
    s.delta_g_matrix = Array2::from_elem((2, 2), dg.into());
    s.entropy_matrix = Array2::from_elem((2, 2), ds.into());
    s.change_temperature_to(Kelvin(kelvin));
    s
}

/// The cells of a matrix, row by row.
fn cells<T: ToString>(matrix: &Array2<T>) -> String {
    let (rows, cols) = (matrix.nrows(), matrix.ncols());
    let places = (0..rows).flat_map(|i| (0..cols).map(move |j| (i, j)));
    places.map(|at| matrix[at].to_string()).collect::<Vec<_>>().join(",")
}

/// One cell of each energy matrix.
fn cell(s: &SDC2DSquare, i: usize, j: usize) -> String {
    format!("{i} {j} {} {}", bits(s.delta_g_matrix[(i, j)].into()), bits(s.entropy_matrix[(i, j)].into()))
}

pub fn reach(out: &mut impl Write) -> Result<()> {
    let s = named();
    writeln!(out, "tiles {}", s.strand_names.join(","))?;
    writeln!(out, "glues {}", s.glue_names.join(","))?;
    writeln!(out, "strand_glues {}", cells(&s.strand_glues))?;
    writeln!(out, "scaffold {}", cells(&s.scaffold))?;
    for (i, j) in [(1, 2), (2, 1), (3, 4), (5, 7), (7, 5), (5, 6), (0, 0)] {
        writeln!(out, "cell {}", cell(&s, i, j))?;
    }
    writeln!(out, "seed {:?}", s.seed.get(&PointSafe2((0, 1))))?;
    writeln!(out, "legal {:?} {:?}", ask::base_allowed_tiles_at(&s, 0, 0), ask::base_allowed_tiles_at(&s, 0, 1))?;
    let only_empty = [vec![vec![0, 99], vec![]]];
    writeln!(out, "legal_under_list {:?}", ask::constrained_allowed_tiles_at(&s, 0, 0, Some(&only_empty)))?;
    writeln!(out, "site {}", bits(ask::site_beta_energy(&s, 0, 0, 1)))?;
    writeln!(out, "edge {}", bits(ask::edge_beta_between(&s, ((0, 0), 1), ((0, 1), 2))))?;
    let full = [vec![1, 2]];
    writeln!(out, "rtval {}", bits(ask::rtval(&s)))?;
    writeln!(out, "state_beta {}", bits(ask::state_beta_energy(&s, &full)))?;
    writeln!(out, "state_g {}", bits(s.state_g(&full)))?;
    for (name, lists) in [("least", None), ("least_under_list", Some(&only_empty[..]))] {
        let (layout, energy) = ask::mfe_configuration(&s, lists);
        writeln!(out, "{name} {layout:?} {}", bits(energy))?;
    }
    writeln!(out, "log_partition {}", ask::log_partition_function(&s, None) > 0.0)?;
    for (dg, ds) in [(1.0, 0.0), (-1.0, 0.0), (0.0, 1.0)] {
        let s = numbered(dg, ds, 310.15);
        let legal = ask::base_allowed_tiles_at(&s, 0, 0);
        let (_, energy) = ask::mfe_configuration(&s, None);
        writeln!(out, "numbered {dg} {ds} legal {legal:?} least {}", bits(energy))?;
    }
    for log in [0.0, -16.11809565095832, 3.5, f64::NEG_INFINITY, 0.1, -0.0] {
        writeln!(out, "concentration {} {}", bits(log), systems::concentration(log).is_ok())?;
    }
    Ok(())
}
