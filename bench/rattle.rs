//! Times the Rattle run, which is linked as the archive that `bin/archive` makes.

mod systems;
mod timing;

use systems::{Lent, System};

/// `run_export::RunNumbers`.
#[repr(C)]
struct RunNumbers {
    number: u32,
    first: usize,
    energy: f64,
}

extern "C" {
    /// A slice is a pointer and a length.
    fn run_export_mfe_configuration(
        rows: usize,
        cols: usize,
        strands: usize,
        glues: usize,
        kelvin: f64,
        strand_glues: *const u32,
        strand_glues_length: usize,
        scaffold: *const u32,
        scaffold_length: usize,
        delta_g: *const f64,
        delta_g_length: usize,
        entropy: *const f64,
        entropy_length: usize,
        logs: *const f64,
        logs_length: usize,
        seeds: *const u32,
        seeds_length: usize,
        constrained: bool,
        offsets: *const usize,
        offsets_length: usize,
        tiles: *const u32,
        tiles_length: usize,
        layout: *mut u32,
        layout_length: usize,
        energies: *mut f64,
        energies_length: usize,
        leaving: *mut u8,
        leaving_length: usize,
    ) -> RunNumbers;
}

/// The run over tables of the right length, and over shorter ones.
fn run(s: &System, lent: &mut Lent, rows: usize) -> RunNumbers {
    let (energies, leaving) = (&mut lent.energies[..rows], &mut lent.leaving[..rows]);
    // SAFETY: each pointer goes with the length of its slice, and no `&mut` one overlaps another.
    unsafe {
        run_export_mfe_configuration(
            s.rows,
            s.cols,
            s.strands,
            s.glues,
            s.kelvin,
            s.strand_glues.as_ptr(),
            s.strand_glues.len(),
            s.scaffold.as_ptr(),
            s.scaffold.len(),
            s.delta_g.as_ptr(),
            s.delta_g.len(),
            s.entropy.as_ptr(),
            s.entropy.len(),
            s.logs.as_ptr(),
            s.logs.len(),
            s.seeds.as_ptr(),
            s.seeds.len(),
            s.constrained,
            s.offsets.as_ptr(),
            s.offsets.len(),
            s.tiles.as_ptr(),
            s.tiles.len(),
            lent.layout.as_mut_ptr(),
            lent.layout.len(),
            energies.as_mut_ptr(),
            energies.len(),
            leaving.as_mut_ptr(),
            leaving.len(),
        )
    }
}

fn main() {
    let (file, floor) = timing::arguments();
    for system in System::all(&file) {
        let mut lent = Lent::to(&system);
        let short = run(&system, &mut lent, system.need - 1);
        assert_eq!((short.number, short.first), (9, system.need), "the need that the generator worked out");
        let mut energy = f64::NAN;
        let all = timing::timed(floor, || {
            let answer = run(&system, &mut lent, system.need);
            assert_eq!(answer.number, 0, "a refusal");
            energy = answer.energy;
        });
        println!("{}", timing::line(energy, &format!("{:016x}", lent.sum()), &all));
    }
}
