//! Accepted tables of every shape.

use super::pool::Pool;
use super::raw::{self, Parts};
use super::texts::LONGEST;
use crate::answer::LARGEST_TABLE;
use crate::element::id;
use crate::random::Random;
use crate::settings::{Chip, Rules, Settings};

/// The twelve kinds that stand in a zone.
pub const DEVICES: [u8; 12] = [
    id::DIGITAL_SENSOR,
    id::ANALOGUE_SENSOR,
    id::FAN,
    id::STATUS_LED,
    id::WATER_LEVEL,
    id::PUMP,
    id::VOLTAGE,
    id::CURRENT,
    id::CONTROLLER,
    id::TACHOMETER,
    id::EXTERNAL_RGB,
    id::RGB_LED,
];

/// All twelve, those first whose pins others may take.
const HARDEST_FIRST: [u8; 12] = [
    id::RGB_LED,
    id::FAN,
    id::PUMP,
    id::ANALOGUE_SENSOR,
    id::WATER_LEVEL,
    id::VOLTAGE,
    id::CURRENT,
    id::DIGITAL_SENSOR,
    id::CONTROLLER,
    id::TACHOMETER,
    id::EXTERNAL_RGB,
    id::STATUS_LED,
];

/// The longest of the devices without a variable part; 09h, 0Ah and 0Dh can be as short as 17, 14 and 15.
const FIXED_ROOM: usize = 21;

/// How many elements of which sort, and how long the table shall be.
struct Plan {
    zones: usize,
    strings: usize,
    devices: usize,
    /// Kinds that must be there, first of all devices.
    forced: Vec<u8>,
    /// Kinds to pick the other devices from.
    kinds: Vec<u8>,
    /// Most bytes the table may have.
    limit: usize,
    /// Fill the strings until the limit is reached exactly.
    exact: bool,
    /// The most units of a text, unless there is no other way to the limit.
    longest: usize,
    /// Rather pins around the four than others.
    near: bool,
}

/// A table that is accepted with these settings, as its parts.
pub fn valid_parts(random: &mut Random, settings: Settings) -> Parts {
    let plan = plan(random);
    build(random, settings, &plan)
}

/// A table that the 320 accepts by these rules, rather with pins around the four that the 321 lacks.
pub fn valid_near(random: &mut Random, rules: Rules) -> Vec<u8> {
    let mut plan = plan(random);
    plan.near = true;
    build(random, Settings::new(Chip::F320, rules), &plan).bytes()
}

/// A table that is accepted with these settings.
pub fn valid(random: &mut Random, settings: Settings) -> Vec<u8> {
    valid_parts(random, settings).bytes()
}

/// A table of exactly 4,096 bytes with all fourteen kinds, and texts of up to 64 units, that is accepted with
/// these settings.
pub fn mixed(random: &mut Random, settings: Settings) -> Vec<u8> {
    let zones = random.between(1, 12);
    let strings = random.between(24, 32);
    let plan = Plan {
        zones,
        strings,
        devices: random.between(80, 96) - zones - strings,
        forced: HARDEST_FIRST.to_vec(),
        kinds: DEVICES.to_vec(),
        limit: LARGEST_TABLE,
        exact: true,
        longest: LONGEST,
        near: false,
    };
    build(random, settings, &plan).bytes()
}

/// A table of so many elements, 1 to 96, that is accepted with these settings: all kinds from 18 on, some 42
/// bytes to each, texts of up to 64 units.
pub fn mixed_of(random: &mut Random, elements: usize, settings: Settings) -> Vec<u8> {
    let zones = 1 + (elements - 1) / 12;
    let strings = elements / 4;
    let plan = Plan {
        zones,
        strings,
        devices: elements - zones - strings,
        forced: HARDEST_FIRST.to_vec(),
        kinds: DEVICES.to_vec(),
        limit: 16 + 42 * elements,
        exact: strings > 0,
        longest: LONGEST,
        near: false,
    };
    build(random, settings, &plan).bytes()
}

fn plan(random: &mut Random) -> Plan {
    let elements = match random.below(10) {
        0 => 0,
        1..=4 => random.between(1, 8),
        5..=7 => random.between(5, 40),
        8 => random.between(40, 96),
        _ => 96,
    };
    let some = random.below(13);
    let most = *random.pick(&[0, 1, 2, 3, 12, 12, some]);
    let zones = most.min(elements);
    let mut strings = random.below(elements - zones + 1);
    if random.chance(50) {
        strings /= 4;
    }
    if zones == 0 {
        // Without a zone nothing but strings can stand.
        strings = elements;
    }
    let exact = strings > 0 && random.chance(20);
    let limit = match random.below(3) {
        _ if exact => LARGEST_TABLE,
        0 => LARGEST_TABLE,
        _ => (16 + elements * 30 + random.below(200)).min(LARGEST_TABLE),
    };
    Plan {
        zones,
        strings,
        devices: elements - zones - strings,
        forced: Vec::new(),
        kinds: kinds(random),
        limit,
        exact,
        longest: 200,
        near: false,
    }
}

/// Usually all kinds, sometimes a few only.
fn kinds(random: &mut Random) -> Vec<u8> {
    if random.chance(60) {
        return DEVICES.to_vec();
    }
    (0..random.between(1, 3))
        .map(|_| *random.pick(&DEVICES))
        .collect()
}

fn build(random: &mut Random, settings: Settings, plan: &Plan) -> Parts {
    let mut pool = Pool::new(random, settings, plan.zones, plan.strings);
    if plan.near {
        pool.stay_near();
    }
    if !plan.forced.is_empty() {
        pool.spare_pins();
    }
    // Hardware revision pins before the elements' pins, unless certain elements must find theirs.
    let early = plan.forced.is_empty().then(|| pool.description());
    let mut elements = Vec::new();
    let mut room = plan.limit - 16 - 30 * plan.zones - 6 * plan.strings;
    for made in 0..plan.devices {
        let kept = FIXED_ROOM * (plan.devices - made - 1);
        let kind = match plan.forced.get(made) {
            Some(&kind) => kind,
            None => *pool.random.pick(&plan.kinds),
        };
        let most = room.saturating_sub(kept);
        // Texts are even: to fill the table the last device takes the odd byte, unless its kind is forced.
        let last = plan.exact && made + 1 == plan.devices && made >= plan.forced.len();
        let fitting = match last {
            true => pool.device_of_parity(!room.is_multiple_of(2), most),
            false => None,
        };
        let element = fitting.unwrap_or_else(|| pool.device(kind, most));
        room -= element.len();
        elements.push(element);
    }
    let description = early.unwrap_or_else(|| pool.description());
    elements.extend(pool.zone_elements());
    elements.extend(pool.string_elements(room, plan.exact, plan.longest));
    random.shuffle(&mut elements);
    deal_fan_list(&mut elements);
    Parts {
        description,
        elements,
    }
}

/// Gives the fan-list pins of all fans, pumps and RGB LEDs out anew, so that they rise from element to element.
/// Each keeps as many as it has.
fn deal_fan_list(elements: &mut [Vec<u8>]) {
    let mut places = Vec::new();
    for (at, element) in elements.iter().enumerate() {
        let pins = match element[0] {
            id::FAN | id::PUMP if element[9] == 0xFF => 8..9,
            id::FAN | id::PUMP => 8..10,
            id::RGB_LED => 8..11,
            _ => continue,
        };
        places.extend(pins.map(|byte| (at, byte)));
    }
    let mut pins: Vec<u8> = places
        .iter()
        .map(|&(at, byte)| elements[at][byte])
        .collect();
    // The order of the bytes is the order of the list.
    pins.sort_unstable();
    for ((at, byte), pin) in places.into_iter().zip(pins) {
        elements[at][byte] = pin;
    }
}

/// A table of exactly 4,096 bytes that is accepted with these settings: one zone descriptor and then 09h
/// elements only.
pub fn controllers(random: &mut Random, settings: Settings) -> Vec<u8> {
    // The last pin of port 2.
    let last_of_port = match settings.chip {
        Chip::F320 => 0x27,
        Chip::F321 => 0x23,
    };
    // 30 bytes of zone leave 4,050 = 11 x elements + 2 x blocks + 4 x pairs, so that the elements
    // are even in number, and so are 11 x elements / 2 + blocks + 2025 together.
    let count = 2 * random.between(25, 47);
    let mut blocks: Vec<Vec<u8>> = (0..count).map(|_| vec![1; random.between(1, 3)]).collect();
    let total: usize = blocks.iter().map(Vec::len).sum();
    if !(4050 - 11 * count - 2 * total).is_multiple_of(4) {
        blocks[0].push(1);
    }
    let used: usize = blocks.iter().map(|list| 11 + 6 * list.len()).sum();
    spread(random, &mut blocks, (4050 - used) / 4);
    let zone = random.byte();
    let mut elements = vec![raw::zone(zone, 0)];
    for list in &blocks {
        let bus = *random.pick(settings.rules.buses());
        let address = if bus == 3 {
            *random.pick(&[0x14, 0x15, last_of_port, 0x30, 0x05])
        } else {
            random.byte()
        };
        elements.push(raw::controller(zone, bus, address, list));
    }
    let last = random.below(elements.len());
    elements.swap(0, last);
    raw::table(&elements)
}

/// Gives four bytes each to register pairs; now and then six pairs' worth to blocks instead.
fn spread(random: &mut Random, blocks: &mut [Vec<u8>], mut pairs: usize) {
    while pairs > 0 {
        let at = random.below(blocks.len());
        // Two more blocks of one pair each take twelve bytes, as three pairs do.
        if pairs >= 3 && blocks[at].len() <= 4 && random.chance(15) {
            blocks[at].extend([1, 1]);
            pairs -= 3;
        } else {
            let which = random.below(blocks[at].len());
            let entries = &mut blocks[at][which];
            if *entries < 255 {
                *entries += 1;
                pairs -= 1;
            }
        }
    }
}
