//! Tables and elements put together byte by byte, without records and without any check.

use crate::element::id;

/// Table A of document 01.
pub const TABLE_A: [u8; 16] = [
    0x01, 0x10, 0x00, 0x02, 0x00, 0x07, 0x00, 0x00, 0x80, 0xFF, 0xFF, 0xFF, 0x00, 0x00, 0x00, 0x00,
];

/// Fan F of document 01.
pub const FAN_F: [u8; 16] = [
    0x03, 0x10, 0x00, 0x00, 0xFF, 0xFF, 0xFF, 0x01, 0x05, 0x06, 0x02, 0x2C, 0x01, 0xDC, 0x05, 0x40,
];

/// Controller C of document 01.
pub const CONTROLLER_C: [u8; 17] = [
    0x09, 0x11, 0x00, 0x00, 0xFF, 0xFF, 0xFF, 0x01, 0x00, 0x40, 0x00, 0x05, 0x01, 0x07, 0x00, 0x0C,
    0x00,
];

/// A description and its elements, each as bytes.
#[derive(Clone, Debug, PartialEq, Eq)]
pub struct Parts {
    pub description: [u8; 16],
    pub elements: Vec<Vec<u8>>,
}

impl Parts {
    /// Table A with these elements.
    pub fn of(elements: &[Vec<u8>]) -> Parts {
        Parts {
            description: TABLE_A,
            elements: elements.to_vec(),
        }
    }

    /// End to end, with the table's length mended.
    pub fn bytes(&self) -> Vec<u8> {
        let mut table = self.description.to_vec();
        for element in &self.elements {
            table.extend_from_slice(element);
        }
        mend(&mut table);
        table
    }
}

/// Table A, its length mended, and these elements.
pub fn table(elements: &[Vec<u8>]) -> Vec<u8> {
    Parts::of(elements).bytes()
}

/// Writes the true length into bytes 1-2 (its low 16 bits, should it not fit).
pub fn mend(table: &mut [u8]) {
    let length = table.len();
    if length >= 3 {
        table[1] = length as u8;
        table[2] = (length >> 8) as u8;
    }
}

/// The elements of any bytes, as far as they can be cut; a length under 3 is taken for 3.
pub fn cut(table: &[u8]) -> impl Iterator<Item = &[u8]> {
    let mut rest = table.get(16..).unwrap_or(&[]);
    std::iter::from_fn(move || {
        let &[_, low, high] = rest.first_chunk()?;
        let length = usize::from(u16::from_le_bytes([low, high]));
        let (element, after) = rest.split_at_checked(length.max(3))?;
        rest = after;
        Some(element)
    })
}

/// Header and body, the length right.
pub fn element(identifier: u8, body: &[u8]) -> Vec<u8> {
    let length = (body.len() + 3) as u16;
    let mut bytes = vec![identifier, length as u8, (length >> 8) as u8];
    bytes.extend_from_slice(body);
    bytes
}

/// The element with its length field made to say what its bytes are.
pub fn mend_element(element: &mut [u8]) {
    mend(element);
}

/// An element of one of the twelve kinds that begin with string index, position and zone.
fn device(identifier: u8, zone: u8, fields: &[u8]) -> Vec<u8> {
    let mut body = vec![0, 0xFF, 0xFF, 0xFF, zone];
    body.extend_from_slice(fields);
    element(identifier, &body)
}

pub fn digital(zone: u8, bus: u8, address: u8) -> Vec<u8> {
    let fields = [bus, address, 0, 1, 0, 2, 0, 0, 0, 0, 0xFF, 0x03, 100];
    device(id::DIGITAL_SENSOR, zone, &fields)
}

pub fn analogue(zone: u8, pin: u8) -> Vec<u8> {
    let fields = [1, pin, 0x52, 3, 0xBC, 2, 0xF4, 1, 0x40, 1, 0xC8, 0];
    device(id::ANALOGUE_SENSOR, zone, &fields)
}

pub fn fan(zone: u8, pwm: u8, tachometer: u8) -> Vec<u8> {
    let pulses = if tachometer == 0xFF { 0 } else { 2 };
    let fields = [pwm, tachometer, pulses, 0x2C, 1, 0xDC, 5, 0x40];
    device(id::FAN, zone, &fields)
}

/// Used lights are red and of good status; the codes beside unused pins are 0.
pub fn led(zone: u8, pins: [u8; 3]) -> Vec<u8> {
    let fields: Vec<u8> = pins
        .iter()
        .flat_map(|&pin| [pin, if pin == 0xFF { 0 } else { 0x11 }])
        .collect();
    device(id::STATUS_LED, zone, &fields)
}

/// A pump has a fan's layout.
pub fn pump(zone: u8, pwm: u8, tachometer: u8) -> Vec<u8> {
    let mut element = fan(zone, pwm, tachometer);
    element[0] = id::PUMP;
    element
}

pub fn water(zone: u8, pin: u8) -> Vec<u8> {
    device(id::WATER_LEVEL, zone, &[pin, 0x84, 3, 0x64, 0, 0x2C, 1])
}

/// 14 volts to 0, the specification's own example.
pub fn voltage(zone: u8, pin: u8) -> Vec<u8> {
    device(id::VOLTAGE, zone, &[pin, 140, 0])
}

pub fn current(zone: u8, pin: u8) -> Vec<u8> {
    device(id::CURRENT, zone, &[pin, 0, 0, 0, 0x2C, 1])
}

/// One speed block with so many register pairs.
pub fn block(speed: u8, entries: u8) -> Vec<u8> {
    let mut bytes = vec![speed, entries];
    for pair in 0..entries {
        bytes.extend_from_slice(&[7, 0, pair, 0]);
    }
    bytes
}

pub fn controller(zone: u8, bus: u8, address: u8, blocks: &[u8]) -> Vec<u8> {
    let mut fields = vec![bus, address, 0];
    for (speed, &entries) in blocks.iter().enumerate() {
        fields.extend(block(5 + speed as u8, entries));
    }
    device(id::CONTROLLER, zone, &fields)
}

pub fn tachometer(zone: u8, bus: u8, address: u8, a: u8, b: u8) -> Vec<u8> {
    let mut fields = vec![bus, address, 0, 0];
    // A register block is a speed block without its SPEED byte.
    fields.extend_from_slice(&block(0, a)[1..]);
    fields.extend_from_slice(&block(0, b)[1..]);
    device(id::TACHOMETER, zone, &fields)
}

/// Of the first chip, with so many register pairs for each colour.
pub fn external(zone: u8, bus: u8, address: u8, entries: [u8; 3]) -> Vec<u8> {
    let mut fields = vec![bus, address, 0, 1];
    for entries in entries {
        fields.extend_from_slice(&block(0, entries)[1..]);
    }
    device(id::EXTERNAL_RGB, zone, &fields)
}

pub fn rgb(zone: u8, red: u8, green: u8, blue: u8) -> Vec<u8> {
    device(id::RGB_LED, zone, &[red, green, blue])
}

/// A string in English (0409h).
pub fn text(number: u8, data: &[u8]) -> Vec<u8> {
    let mut body = vec![number, 0x09, 0x04];
    body.extend_from_slice(data);
    element(id::TEXT, &body)
}

pub fn zone(number: u8, string: u8) -> Vec<u8> {
    let mut body = vec![number, string];
    body.resize(27, 0);
    element(id::ZONE, &body)
}
