//! The cases of lookups and views.

use crate::library::locations::Cursor;
use crate::text;

#[derive(Clone)]
pub enum LocationsCase {
    /// The lookup of an index.
    Lookup { area: Vec<u8>, fixed: Vec<u8>, index: u32 },
    /// The steps of a view from the start, to the end or the refusal and so many beyond.
    View { area: Vec<u8>, beyond: usize },
    /// One step from any cursor.
    Step { area: Vec<u8>, cursor: Cursor },
}

impl LocationsCase {
    pub fn text(&self) -> String {
        let area = text::buffer("area", self.area());
        match self {
            LocationsCase::Lookup { fixed, index, .. } => {
                format!("the lookup of index {index:#x}\n{area}{}", text::buffer("fixed list", fixed))
            }
            LocationsCase::View { beyond, .. } => format!("a view, and {beyond} steps beyond its end\n{area}"),
            LocationsCase::Step { cursor, .. } => format!("a step from {cursor:x?}\n{area}"),
        }
    }

    pub fn area(&self) -> &[u8] {
        match self {
            LocationsCase::Lookup { area, .. }
            | LocationsCase::View { area, .. }
            | LocationsCase::Step { area, .. } => area,
        }
    }

    pub fn area_mut(&mut self) -> &mut Vec<u8> {
        match self {
            LocationsCase::Lookup { area, .. }
            | LocationsCase::View { area, .. }
            | LocationsCase::Step { area, .. } => area,
        }
    }

    /// The fixed list; none but in a lookup.
    pub fn fixed(&self) -> &[u8] {
        match self {
            LocationsCase::Lookup { fixed, .. } => fixed,
            _ => &[],
        }
    }

    pub fn fixed_mut(&mut self) -> Option<&mut Vec<u8>> {
        match self {
            LocationsCase::Lookup { fixed, .. } => Some(fixed),
            _ => None,
        }
    }
}
