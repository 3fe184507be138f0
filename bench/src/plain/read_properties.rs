//! Reading a property work area.

use super::journal::NAME_LIMIT;
use super::words::be32;
use crate::interface::{PropertyReading, NODE_AREA};

/// A refusal and its offset.
type Refused = (u32, usize);

/// One property: the place and length of its name, its descriptor, the place and length of its value.
type Property = [u32; 5];

/// The properties go to `out`, as many as it has room for.
pub fn read_properties(area: &[u8], out: &mut [u32]) -> PropertyReading {
    match properties(area) {
        Ok(properties) => {
            for (place, property) in out.chunks_exact_mut(5).zip(&properties) {
                place.copy_from_slice(property);
            }
            let (phandle, state) = (be32(area, 0), be32(area, 4));
            PropertyReading { refusal: 0, phandle, state, offset: 0, entries: properties.len() }
        }
        Err((refusal, offset)) => PropertyReading { refusal, phandle: 0, state: 0, offset, entries: 0 },
    }
}

/// Judges the area and gathers its properties. Nothing is written before all are judged.
fn properties(area: &[u8]) -> Result<Vec<Property>, Refused> {
    if area.len() != NODE_AREA {
        return Err((40, 0));
    }
    if area[8..16].iter().any(|&byte| byte != 0) {
        return Err((41, 8));
    }
    let mut properties = Vec::new();
    let mut at = 20;
    for _ in 0..be32(area, 16) {
        let property = property_at(area, at)?;
        at = (property[3] + property[4]) as usize;
        properties.push(property);
    }
    Ok(properties)
}

/// The property at a place.
fn property_at(area: &[u8], at: usize) -> Result<Property, Refused> {
    let text = &area[at..NODE_AREA.min(at + NAME_LIMIT + 1)];
    let name = text.iter().position(|&byte| byte == 0).filter(|&name| name > 0).ok_or((42, at))?;
    let value_at = at + name + 5;
    if value_at > NODE_AREA {
        return Err((43, at));
    }
    let descriptor = be32(area, value_at - 4);
    let length = if descriptor == 0x8000_0000 { 0 } else { (descriptor as i32).unsigned_abs() };
    if length as usize > NODE_AREA - value_at {
        return Err((43, at));
    }
    Ok([at as u32, name as u32, descriptor, value_at as u32, length])
}
