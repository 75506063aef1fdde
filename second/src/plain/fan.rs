//! The question for a fan once more, out of records and over all of them, to be held against the other.

use super::elements;
use crate::answer::Refusal;
use crate::fan::Walked;
use crate::record::Element;
use crate::settings::Settings;

/// The positions of all fans and pumps of the zone are gathered, and the first one counts: it is visited, and so
/// are those before it; or all elements where the list is empty.
pub fn fan(table: &[u8], zone: u8, settings: Settings) -> Result<Walked, Refusal> {
    let found = elements(table, settings)?;
    let mut positions = Vec::new();
    for (position, one) in found.iter().enumerate() {
        match one.element {
            Element::Fan(fan) if fan.common.zone == zone => positions.push(position),
            Element::Pump(pump) if pump.common.zone == zone => positions.push(position),
            _ => (),
        }
    }
    let first = positions.first();
    Ok(Walked {
        met: first.is_some(),
        visited: first.map_or(found.len(), |position| position + 1),
    })
}
