//! Stands in for `crate::colors`: every colour is black. No energy, name or legal set reads one.

pub fn get_color_or_random(_: Option<&str>) -> Result<[u8; 4], ()> {
    Ok([0, 0, 0, 0])
}
