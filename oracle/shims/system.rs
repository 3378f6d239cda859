//! Stands in for `crate::system`: the traits that `sdc2d.rs` implements, with the methods that it gives. The oracle
//! calls none of them; they are here so that the file compiles as it is.

use crate::base::{GrowError, Tile};
use crate::canvas::{PointSafe2, PointSafeHere};
use crate::state::State;
use crate::units::PerSecond;
use ndarray::prelude::Array2;
use std::any::Any;

#[derive(Debug)]
pub enum Event {
    None,
    MonomerAttachment(PointSafe2, Tile),
    MonomerDetachment(PointSafe2),
    MonomerChange(PointSafe2, Tile),
}

pub enum NeededUpdate {
    NonZero,
}

pub struct ParameterInfo {
    pub name: String,
    pub units: String,
    pub default_increment: f64,
    pub min_value: Option<f64>,
    pub max_value: Option<f64>,
    pub description: Option<String>,
    pub current_value: f64,
}

pub trait System {
    fn update_after_event<S: State>(&self, state: &mut S, event: &Event);
    fn perform_event<S: State>(&self, state: &mut S, event: &Event) -> f64;
    fn event_rate_at_point<S: State>(&self, state: &S, p: PointSafeHere) -> PerSecond;
    fn choose_event_at_point<S: State>(&self, state: &S, p: PointSafe2, acc: PerSecond) -> (Event, f64);
    fn seed_locs(&self) -> Vec<(PointSafe2, Tile)>;
    fn calc_mismatch_locations<S: State>(&self, state: &S) -> Array2<usize>;
    fn set_param(&mut self, name: &str, value: Box<dyn Any>) -> Result<NeededUpdate, GrowError>;
    fn get_param(&self, name: &str) -> Result<Box<dyn Any>, GrowError>;
    fn list_parameters(&self) -> Vec<ParameterInfo>;
    fn system_info(&self) -> String;
}

pub trait TileBondInfo {
    fn tile_colors(&self) -> &Vec<[u8; 4]>;
    fn tile_names(&self) -> &[String];
    fn bond_names(&self) -> &[String];
    fn tile_edge_glues(&self, tile_number: Tile) -> [Option<usize>; 4];
}
