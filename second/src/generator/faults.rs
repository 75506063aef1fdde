//! Two or three faults at once in a table that was good, so that the order of the rules matters.

use super::around::AROUND;
use super::raw::{self, Parts};
use super::texts::spoil;
use super::valid::valid_parts;
use crate::element::id;
use crate::random::Random;
use crate::settings::Settings;

type Fault = fn(&mut Random, &mut Parts);

const FAULTS: [Fault; 33] = [
    wrong_type,
    wrong_power,
    wrong_hardware_pin,
    strapped_fault_led,
    strapped_element_pin,
    strapped_around_the_four,
    description_string,
    unknown_element,
    longer_element,
    shorter_element,
    length_under_three,
    length_past_the_end,
    bytes_left,
    wrong_code,
    wrong_code,
    block_mode,
    block_mode,
    wrong_pin,
    wrong_pin,
    pin_around_the_four,
    fans_exchanged,
    fans_exchanged,
    one_more_fan,
    string_zero,
    spoilt_text,
    spoilt_text,
    element_again,
    element_again,
    zone_gone,
    string_gone,
    element_names_missing,
    many_strings,
    many_zones,
];

/// A table with two or three faults, some of which may cancel or hide each other.
pub fn double_faults(random: &mut Random, settings: Settings) -> Vec<u8> {
    let mut parts = valid_parts(random, settings);
    for _ in 0..random.between(2, 3) {
        let fault = *random.pick(&FAULTS);
        fault(random, &mut parts);
    }
    let mut table = parts.bytes();
    if random.chance(4) {
        table[0] = *random.pick(&[0x00, 0x02, 0x09, 0x10]);
    }
    if random.chance(4) {
        table[1] = table[1].wrapping_add(1);
    }
    table
}

/// One of the elements that `wanted` takes, or `None` when there is none.
fn one_of<'p>(
    random: &mut Random,
    parts: &'p mut Parts,
    wanted: fn(&[u8]) -> bool,
) -> Option<&'p mut Vec<u8>> {
    let places: Vec<usize> = (0..parts.elements.len())
        .filter(|&at| wanted(&parts.elements[at]))
        .collect();
    if places.is_empty() {
        return None;
    }
    let at = *random.pick(&places);
    Some(&mut parts.elements[at])
}

fn insert(random: &mut Random, parts: &mut Parts, element: Vec<u8>) {
    let at = random.below(parts.elements.len() + 1);
    parts.elements.insert(at, element);
}

fn wrong_type(random: &mut Random, parts: &mut Parts) {
    parts.description[3] = *random.pick(&[0, 4, 255]);
}

fn wrong_power(random: &mut Random, parts: &mut Parts) {
    parts.description[8] = *random.pick(&[126, 127]);
}

fn wrong_hardware_pin(random: &mut Random, parts: &mut Parts) {
    let at = random.between(9, 11);
    parts.description[at] = *random.pick(&[0x08, 0x0F, 0x18, 0x31, 0xEE, 0xF0]);
}

fn strapped_fault_led(random: &mut Random, parts: &mut Parts) {
    parts.description[random.between(9, 11)] = 0x10;
}

fn strapped_element_pin(random: &mut Random, parts: &mut Parts) {
    let at = random.between(9, 11);
    parts.description[at] = *random.pick(&crate::pins::ALL);
}

/// Alone this is no fault, or one on the smaller chip only.
fn strapped_around_the_four(random: &mut Random, parts: &mut Parts) {
    parts.description[random.between(9, 11)] = *random.pick(&AROUND);
}

fn description_string(random: &mut Random, parts: &mut Parts) {
    parts.description[4] = random.byte();
}

fn unknown_element(random: &mut Random, parts: &mut Parts) {
    let identifier = *random.pick(&[0x00, 0x0F, 0x10, 0x13, 0x16, 0x77, 0x8D, 0xFF]);
    let length = random.below(20);
    let body = random.bytes(length);
    insert(random, parts, raw::element(identifier, &body));
}

fn longer_element(random: &mut Random, parts: &mut Parts) {
    let more = random.between(1, 4);
    let bytes = random.bytes(more);
    if let Some(element) = one_of(random, parts, |_| true) {
        element.extend(bytes);
        raw::mend_element(element);
    }
}

fn shorter_element(random: &mut Random, parts: &mut Parts) {
    let fewer = random.between(1, 4);
    if let Some(element) = one_of(random, parts, |e| e.len() > 7) {
        element.truncate(element.len() - fewer);
        raw::mend_element(element);
    }
}

fn length_under_three(random: &mut Random, parts: &mut Parts) {
    let said = random.below(3) as u8;
    if let Some(element) = one_of(random, parts, |e| e.len() > 2) {
        element[1..3].copy_from_slice(&[said, 0]);
    }
}

fn length_past_the_end(_: &mut Random, parts: &mut Parts) {
    if let Some(last) = parts.elements.last_mut() {
        let said = (last.len() as u16).wrapping_add(1);
        if last.len() > 2 {
            last[1..3].copy_from_slice(&said.to_le_bytes());
        }
    }
}

fn bytes_left(random: &mut Random, parts: &mut Parts) {
    let count = random.between(1, 2);
    let bytes = random.bytes(count);
    parts.elements.push(bytes);
}

fn wrong_code(random: &mut Random, parts: &mut Parts) {
    let has_code = |e: &[u8]| matches!(e[0], 1..=6 | 9 | 10 | 13) && e.len() > 13;
    let byte = random.byte();
    let high = random.between(4, 15) as u8;
    let Some(e) = one_of(random, parts, has_code) else {
        return;
    };
    match e[0] {
        id::ANALOGUE_SENSOR if byte & 1 == 0 => e[11] = high,
        id::FAN | id::PUMP => e[9..11].copy_from_slice(&[0xFF, byte | 1]),
        // FULL or EMPTY: WARNING may be cut off already.
        id::WATER_LEVEL => e[10 + 2 * usize::from(byte % 2)] = high,
        id::EXTERNAL_RGB if byte & 1 == 0 => e[11] = byte & 4,
        id::STATUS_LED => e[9] = byte | 8,
        id::CONTROLLER if byte & 1 == 0 => e[12] = 0,
        _ => e[8] = high,
    }
}

/// Alone this is a fault for the ordinary reader only.
fn block_mode(random: &mut Random, parts: &mut Parts) {
    let bus = *random.pick(&[0x02, 0x12, 0xF2]);
    if let Some(e) = one_of(random, parts, |e| {
        id::ON_A_BUS.contains(&e[0]) && e.len() > 9
    }) {
        e[8] = bus;
    }
}

fn wrong_pin(random: &mut Random, parts: &mut Parts) {
    let pin = *random.pick(&[0x07, 0x08, 0x0F, 0x10, 0x18, 0x28, 0x31, 0xEE, 0xF0, 0xFE]);
    place_pin(random, parts, pin);
}

/// Alone this is no fault, or one on the smaller chip only; at a fan or an RGB LED it is one on both.
fn pin_around_the_four(random: &mut Random, parts: &mut Parts) {
    let pin = *random.pick(&AROUND);
    place_pin(random, parts, pin);
}

fn place_pin(random: &mut Random, parts: &mut Parts, pin: u8) {
    let has_pin = |e: &[u8]| matches!(e[0], 1..=10 | 13 | 14) && e.len() > 10;
    let at = random.between(8, 10);
    let Some(e) = one_of(random, parts, has_pin) else {
        return;
    };
    match e[0] {
        kind if id::ON_A_BUS.contains(&kind) => {
            e[8] = 3;
            e[9] = pin;
        }
        id::ANALOGUE_SENSOR => e[9] = pin,
        id::STATUS_LED => e[8..10].copy_from_slice(&[pin, 0x11]),
        id::RGB_LED => e[at] = pin,
        _ => e[8] = pin,
    }
}

/// Two of the fans, pumps and RGB LEDs in each other's place.
fn fans_exchanged(random: &mut Random, parts: &mut Parts) {
    let counted = |at: &usize| {
        let kind = parts.elements[*at][0];
        matches!(kind, id::FAN | id::PUMP | id::RGB_LED)
    };
    let places: Vec<usize> = (0..parts.elements.len()).filter(counted).collect();
    if !places.is_empty() {
        let [one, other] = [(); 2].map(|()| *random.pick(&places));
        parts.elements.swap(one, other);
    }
}

/// A fan or a pump on any pin of the fan list, in a zone that is there if any is.
fn one_more_fan(random: &mut Random, parts: &mut Parts) {
    let zone = one_of(random, parts, |e| e[0] == id::ZONE && e.len() > 3).map_or(1, |e| e[3]);
    let pin = *random.pick(&crate::pins::FAN_LIST);
    let made = *random.pick(&[raw::fan, raw::pump]);
    insert(random, parts, made(zone, pin, 0xFF));
}

fn string_zero(random: &mut Random, parts: &mut Parts) {
    let text = raw::text(0, b"zero");
    insert(random, parts, text);
}

/// A text that is not well-formed any more, or nearly.
fn spoilt_text(random: &mut Random, parts: &mut Parts) {
    let mut random_part = Random::new(random.word());
    if let Some(element) = one_of(random, parts, |e| e[0] == id::TEXT && e.len() > 5) {
        let mut text = element.split_off(6);
        spoil(&mut random_part, &mut text);
        element.extend(text);
        raw::mend_element(element);
    }
}

/// A zone or string so declared twice (12), a fan's pins so used twice (10), other pins claimed twice (15).
fn element_again(random: &mut Random, parts: &mut Parts) {
    if let Some(element) = one_of(random, parts, |_| true) {
        let again = element.clone();
        insert(random, parts, again);
    }
}

fn gone(random: &mut Random, parts: &mut Parts, identifier: u8) {
    let places: Vec<usize> = (0..parts.elements.len())
        .filter(|&at| parts.elements[at][0] == identifier)
        .collect();
    if !places.is_empty() {
        parts.elements.remove(*random.pick(&places));
    }
}

fn zone_gone(random: &mut Random, parts: &mut Parts) {
    gone(random, parts, id::ZONE);
}

fn string_gone(random: &mut Random, parts: &mut Parts) {
    gone(random, parts, id::TEXT);
}

fn element_names_missing(random: &mut Random, parts: &mut Parts) {
    let at = *random.pick(&[3, 4, 7]);
    let number = random.byte();
    if let Some(element) = one_of(random, parts, |e| e.len() > 7 && e[0] != id::TEXT) {
        element[at] = number;
    }
}

fn many_strings(random: &mut Random, parts: &mut Parts) {
    let wanted = random.between(95, 98);
    let mut number = 1;
    while parts.elements.len() < wanted {
        let taken = |e: &Vec<u8>| e[0] == id::TEXT && e.get(3) == Some(&number);
        if !parts.elements.iter().any(taken) {
            parts.elements.push(raw::text(number, &[]));
        }
        number = number.wrapping_add(1).max(1);
    }
}

fn many_zones(random: &mut Random, parts: &mut Parts) {
    for number in 0..random.between(1, 13) {
        insert(random, parts, raw::zone(240 + number as u8, 0));
    }
}
