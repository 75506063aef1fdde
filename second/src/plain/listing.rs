//! The listing once more, out of records and of pieces of text, to be held against the fast one.

use super::{elements, own_pins};
use crate::answer::Refusal;
use crate::element::read_description;
use crate::pins::{name, Pin};
use crate::record::{Description, Element};
use crate::rules::bus_in_use;
use crate::settings::{Rules, Settings};

/// The text for a table, accepted or refused.
pub fn listing(table: &[u8], settings: Settings) -> Vec<u8> {
    let found = match elements(table, settings) {
        Ok(found) => found,
        Err(Refusal { number, place }) => return format!("R\t{number}\t{place}\n").into_bytes(),
    };
    let description = read_description(table, settings.chip);
    let mut text = description_line(table.len(), &description);
    for one in found {
        text.push_str(&element_line(one.place, &one.element, one.part));
    }
    text.into_bytes()
}

/// `T`, revision, length, type, string, serial, power, three hardware pins.
fn description_line(length: usize, description: &Description) -> String {
    let Description {
        device_type,
        string,
        serial,
        ..
    } = description;
    let power = if description.self_powered {
        "self".to_string()
    } else {
        description.power.milliamps().to_string()
    };
    let [first, second, third] = description.hardware.map(name_or_dash);
    format!(
        "T\t0.90\t{length}\t{device_type}\t{string}\t{serial}\t{power}\t{first}\t{second}\t{third}\n"
    )
}

/// `E`, offset, identifier, zone, own used pins; in the archive `retired` behind an element in block mode.
fn element_line(place: usize, element: &Element, part: &[u8]) -> String {
    let identifier = element.identifier();
    let zone = zone(element, part);
    let pins = pins(&own_pins(element));
    let retired = match bus_in_use(element, Rules::Ordinary) {
        true => "",
        false => "\tretired",
    };
    format!("E\t{place}\t{identifier:02X}\t{zone}\t{pins}{retired}\n")
}

/// Of a zone descriptor its own number; only strings have none.
fn zone(element: &Element, part: &[u8]) -> String {
    match (element, element.common()) {
        (_, Some(common)) => common.zone.to_string(),
        (Element::Zone(_), None) => part[0].to_string(),
        _ => "-".to_string(),
    }
}

fn pins(used: &[Pin]) -> String {
    if used.is_empty() {
        return "-".to_string();
    }
    let names: Vec<String> = used.iter().map(|pin| name(pin.byte())).collect();
    names.join(",")
}

fn name_or_dash(pin: Pin) -> String {
    if pin.is_used() {
        name(pin.byte())
    } else {
        "-".to_string()
    }
}
