//! Tables as they are built: started, and element after element appended by the second program's writer, with which the
//! writer's comparison holds the library's.

use second::access::walk;
use second::element::{id, read_description, read_element};
use second::generator::valid_parts;
use second::random::Random;
use second::{append, start, Chip, Settings};

/// A table to come, of one chip, and elements of another one.
pub struct Plan {
    pub chip: Chip,
    pub description: [u8; 16],
    pub elements: Vec<Vec<u8>>,
    pub strangers: Vec<Vec<u8>>,
}

/// Of three accepted tables one is built in its own order: mostly it is refused before its zones and strings are
/// there. In the others these come first, strings before zones, as those name strings.
pub fn plan(random: &mut Random, chip: Chip) -> Plan {
    let settings = Settings::from(chip);
    let mut parts = valid_parts(random, settings);
    if random.chance(67) {
        parts.elements.sort_by_key(|element| match element[0] {
            id::TEXT => 0,
            id::ZONE => 1,
            _ => 2,
        });
    }
    Plan {
        chip,
        description: parts.description,
        elements: parts.elements,
        strangers: valid_parts(random, settings).elements,
    }
}

impl Plan {
    /// The table without elements.
    pub fn started(&self) -> Vec<u8> {
        let mut table = vec![0; 16];
        let description = read_description(&self.description, self.chip);
        start(&mut table, self.chip, &description).expect("an accepted table's description");
        table
    }

    /// An element of the other table, mostly moved to a zone that this one has and without a string, so that it is its
    /// pins that decide; none where there is none.
    pub fn stranger(&self, table: &[u8], random: &mut Random) -> Option<Vec<u8>> {
        if self.strangers.is_empty() {
            return None;
        }
        let mut element = random.pick(&self.strangers).clone();
        let mut zones = walk(table).filter(|(_, bytes)| bytes[0] == id::ZONE);
        let device = !matches!(element[0], id::ZONE | id::TEXT);
        if let (true, Some((_, zone))) = (device && random.chance(80), zones.next()) {
            element[3] = 0;
            element[7] = zone[3];
        }
        Some(element)
    }

    /// The table with one element more; none where it would pass 4,096 bytes.
    pub fn appended(&self, table: &[u8], element: &[u8]) -> Option<Vec<u8>> {
        let (record, part) = read_element(element, self.chip).expect("a whole element");
        let mut longer = table.to_vec();
        longer.resize(table.len() + element.len(), 0);
        append(&mut longer, self.chip, &record, part).ok()?;
        Some(longer)
    }
}

#[cfg(test)]
mod tests {
    use super::*;

    /// What is built in the end is the accepted table itself, reserved places aside.
    #[test]
    fn whole_tables_are_built() {
        let mut random = Random::new(5);
        for at in 0..200 {
            let plan = plan(&mut random, Chip::BOTH[at % 2]);
            let append = |table: Vec<u8>, one: &Vec<u8>| plan.appended(&table, one).unwrap();
            let table = plan.elements.iter().fold(plan.started(), append);
            let verdict = second::check(&table, plan.chip.into());
            assert_eq!(
                (verdict.number(), verdict.beside()),
                (0, plan.elements.len())
            );
            assert_eq!(walk(&table).count(), plan.elements.len());
        }
    }
}
