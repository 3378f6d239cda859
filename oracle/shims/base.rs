//! Stands in for `crate::base`: the types of a tile's and a glue's number, and the errors of parameters.

pub type Tile = u32;
pub type Glue = usize;

#[derive(Debug)]
pub enum GrowError {
    WrongParameterType(String),
    NoParameter(String),
}
