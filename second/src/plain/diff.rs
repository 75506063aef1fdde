//! Two tables side by side once more: every record as a list of names and contents, and the lists held against each other.

use super::{elements, Found};
use crate::answer::Refusal;
use crate::diff::Refused;
use crate::element::read_description;
use crate::pins::{name, Pin};
use crate::record::{Address, Attachment, Common, Description, Element, Fan, Light};
use crate::settings::{Chip, Rules, Settings};
use std::fmt::Display;

/// The names and contents of a record, in layout order.
type Fields = Vec<(String, String)>;

/// The text, or the refusal and whose it is.
pub fn diff(one: &[u8], two: &[u8], chip: Chip) -> Result<Vec<u8>, Refused> {
    let settings = Settings::new(chip, Rules::Archive);
    let refused = |table| move |refusal: Refusal| Refused { table, refusal };
    let ones = elements(one, settings).map_err(refused(1))?;
    let twos = elements(two, settings).map_err(refused(2))?;
    let mut text = String::new();
    let [first, second] = [one, two].map(|table| of_description(&read_description(table, chip)));
    lines(&mut text, [0, 0], &first, &second);
    for k in 0..ones.len().max(twos.len()) {
        match (ones.get(k), twos.get(k)) {
            (Some(one), Some(two)) if one.element.identifier() == two.element.identifier() => {
                let places = [one.place, two.place];
                lines(&mut text, places, &of_element(one), &of_element(two));
            }
            (one, two) => text += &kind_line(one, two),
        }
    }
    Ok(text.into_bytes())
}

/// A line for each content that differs. Two records of one kind have the same names.
fn lines(text: &mut String, [one, two]: [usize; 2], first: &Fields, second: &Fields) {
    for ((name, first), (_, second)) in first.iter().zip(second) {
        if first != second {
            *text += &format!("D\t{one}\t{two}\t{name}\t{first}\t{second}\n");
        }
    }
}

fn kind_line(one: Option<&Found>, two: Option<&Found>) -> String {
    let place = |found: Option<&Found>| found.map_or("-".into(), |found| found.place.to_string());
    let kind = |found: Option<&Found>| {
        found.map_or("-".into(), |found| {
            format!("{:02X}", found.element.identifier())
        })
    };
    let (first, second) = (place(one), place(two));
    format!("D\t{first}\t{second}\tkind\t{}\t{}\n", kind(one), kind(two))
}

fn field(name: &str, content: impl Display) -> (String, String) {
    (name.to_string(), content.to_string())
}

fn pin(pin: Pin) -> String {
    match pin.is_used() {
        true => name(pin.byte()),
        false => "-".to_string(),
    }
}

fn hex(part: &[u8]) -> String {
    part.iter().map(|byte| format!("{byte:02X}")).collect()
}

fn of_description(record: &Description) -> Fields {
    let mut list = vec![
        field("esa device type", record.device_type),
        field("string index", record.string),
        field("serial number", record.serial),
        field("spwr", u8::from(record.self_powered)),
        field("power units", record.power.0),
    ];
    for (number, &hardware) in record.hardware.iter().enumerate() {
        list.push(field(&format!("hardware revision {number}"), pin(hardware)));
    }
    list
}

fn of_element(found: &Found) -> Fields {
    let mut list = Fields::new();
    if let Some(common) = found.element.common() {
        list.extend(of_common(common));
    }
    if let Some(attachment) = found.element.attachment() {
        list.extend(of_attachment(attachment));
    }
    list.extend(of_kind(&found.element));
    let variable = matches!(
        found.element,
        Element::Controller(_)
            | Element::Tachometer(_)
            | Element::ExternalRgb(_)
            | Element::Zone(_)
            | Element::Text(_)
    );
    if variable {
        list.push(field("variable part", hex(found.part)));
    }
    list
}

fn of_common(common: &Common) -> Fields {
    vec![
        field("string index", common.string),
        field("x pos", common.position.x.0),
        field("y pos", common.position.y.0),
        field("z pos", common.position.z.0),
        field("zone identifier", common.zone),
    ]
}

fn of_attachment(attachment: &Attachment) -> Fields {
    let address = match attachment.address {
        Address::Bus(number) => number.to_string(),
        Address::Select(select) => pin(select),
    };
    vec![
        field("bus type", attachment.bus_type),
        field("device address", address),
    ]
}

/// What neither the common fields nor bus type and address nor the variable part hold.
fn of_kind(element: &Element) -> Fields {
    match element {
        Element::DigitalSensor(e) => vec![
            field("temperature lsb read register", e.lsb_register),
            field("temperature msb read register", e.msb_register),
            field("minimum value", e.minimum_value),
            field("minimum temp", e.minimum_temp.0),
            field("maximum value", e.maximum_value),
            field("maximum temp", e.maximum_temp.0),
        ],
        Element::AnalogueSensor(e) => {
            let mut list = vec![
                field("thermal analog type", e.thermal_type),
                field("pin", pin(e.pin)),
            ];
            for (degrees, value) in [0, 25, 50, 75, 100].into_iter().zip(e.calibration) {
                list.push(field(&format!("value{degrees}"), value));
            }
            list
        }
        Element::Fan(e) | Element::Pump(e) => of_fan(e),
        Element::StatusLed(e) => (1..).zip(&e.lights).flat_map(of_light).collect(),
        Element::WaterLevel(e) => vec![
            field("pin", pin(e.pin)),
            field("full", e.full),
            field("empty", e.empty),
            field("warning", e.warning),
        ],
        Element::Voltage(e) => vec![
            field("pin", pin(e.pin)),
            field("vmax", e.at_maximum.0),
            field("vmin", e.at_minimum.0),
        ],
        Element::Current(e) => vec![
            field("pin", pin(e.pin)),
            field("imin", e.at_minimum.0),
            field("imax", e.at_maximum.0),
        ],
        Element::ExternalRgb(e) => vec![field("chip identifier", e.chip_identifier)],
        Element::RgbLed(e) => vec![
            field("red", pin(e.red)),
            field("green", pin(e.green)),
            field("blue", pin(e.blue)),
        ],
        Element::Controller(_) | Element::Tachometer(_) | Element::Zone(_) | Element::Text(_) => {
            Fields::new()
        }
    }
}

fn of_fan(fan: &Fan) -> Fields {
    vec![
        field("pwm", pin(fan.pwm)),
        field("tach", pin(fan.tachometer)),
        field("ppr", fan.pulses_per_revolution),
        field("minimum rpm", fan.minimum_rpm.0),
        field("maximum rpm", fan.maximum_rpm.0),
        field("minimum duty cycle", fan.minimum_duty),
    ]
}

fn of_light((number, light): (u8, &Light)) -> Fields {
    vec![
        field(&format!("pin{number}"), pin(light.pin)),
        field(&format!("color{number}"), light.colour),
        field(&format!("purpose{number}"), light.purpose),
    ]
}
