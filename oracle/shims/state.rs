//! Stands in for `crate::state`: what `sdc2d.rs` asks of a running simulation. Nothing implements it here: the calls
//! that are asked take their layouts as plain rows.

use crate::base::Tile;
use crate::canvas::{PointSafe2, PointSafeHere};
use crate::units::PerSecond;

pub trait State {
    fn nrows(&self) -> usize;
    fn ncols(&self) -> usize;
    fn inbounds(&self, p: (usize, usize)) -> bool;
    fn tile_at_point(&self, p: PointSafe2) -> Tile;
    fn v_sh(&self, p: PointSafeHere) -> Tile;
    fn move_sa_n(&self, p: PointSafe2) -> PointSafeHere;
    fn move_sa_e(&self, p: PointSafe2) -> PointSafeHere;
    fn move_sa_s(&self, p: PointSafe2) -> PointSafeHere;
    fn move_sa_w(&self, p: PointSafe2) -> PointSafeHere;
    fn tile_to_n(&self, p: PointSafe2) -> Tile;
    fn tile_to_e(&self, p: PointSafe2) -> Tile;
    fn tile_to_s(&self, p: PointSafe2) -> Tile;
    fn tile_to_w(&self, p: PointSafe2) -> Tile;
    fn set_sa(&mut self, p: &PointSafe2, tile: &Tile);
    fn update_attachment(&mut self, tile: Tile);
    fn update_detachment(&mut self, tile: Tile);
    fn update_multiple(&mut self, points: &[(PointSafeHere, PerSecond)]);
}
