//! What stands in a table, down to the registers: the description, the variable part of each element, the text of a string, and who
//! has a pin. examples/inside/inside.c says the same from C.
//! inside [FILE]      without FILE it looks at a table that it writes itself.

use esa::{append, block, check, describe, element, entries, entry, label, pair, part, pin, reading, sheet, start, text};
use esa::{Chip, Claimant, Kind, Numbers, Pair, Reading, Refusal, Settings, Sheet, UNUSED_PIN};
use std::process::ExitCode;

/// The chip that this board carries.
const CHIP: Chip = Chip::C8051F320;
const READ: Settings = Settings::ordinary(CHIP);

fn description(numbers: &Numbers) {
    let supply = match numbers.byte_at(6) {
        0 => format!("{} mA from USB", 4 * u32::from(numbers.byte_at(7))),
        _ => "with a supply of its own".to_string(),
    };
    println!("a device of type {}, serial number {}, {supply}", numbers.byte_at(0), numbers.four_at(2));
}

fn told(pair: Pair) {
    println!("    register {}: {}", pair.address, pair.data);
}

/// The speed blocks of an external PWM controller; the default block is the first.
fn speeds(lent: &[u8]) -> Result<(), Refusal> {
    for j in 0.. {
        let Ok(found) = block(lent, j) else { break };
        println!("  at {} RPM:", 100 * u32::from(found.speed));
        for i in 0..usize::from(found.entries) {
            told(pair(lent, j, i)?);
        }
    }
    Ok(())
}

/// The two blocks of an external tachometer.
fn tachometer(lent: &[u8]) -> Result<(), Refusal> {
    for (w, name) in ["to begin with", "for the status"].into_iter().enumerate() {
        println!("  {name}:");
        for i in 0..entries(lent, w)? {
            told(entry(lent, w, i)?);
        }
    }
    Ok(())
}

fn shown(table: &[u8], k: usize) -> Result<(), Refusal> {
    let kind = element(table, k, READ)?;
    let lent = &table[part(table, k, READ)?];
    println!("element {k}, {kind}: a part of {} bytes", lent.len());
    // What a count of 40 means there: of a fan the pulses in one second. Most elements have no reading.
    match reading(table, k, 40, READ) {
        Ok(Reading::Value(value)) => println!("  a count of 40 reads {value}"),
        Ok(Reading::Under0) => println!("  a count of 40 reads under 0"),
        Ok(Reading::Over100) => println!("  a count of 40 reads over 100"),
        Err(_) => {}
    }
    match kind {
        Kind::PwmController => speeds(lent)?,
        Kind::Tachometer => tachometer(lent)?,
        Kind::String => println!("  says '{}'", label(table, k, READ, b"")?.read().unwrap_or_default()),
        _ => assert!(text(table, k, READ)?.is_empty(), "only a string has a text"),
    }
    Ok(())
}

/// Who has a pin, by the sheet.
fn whose(sheet: &Sheet, port: usize, pin: usize) {
    match sheet.claimant(port, pin) {
        Some(Claimant::Free) => println!("P{port}.{pin} is free"),
        Some(Claimant::FaultLed) => println!("P{port}.{pin} is the fault LED's"),
        Some(Claimant::At(place)) => println!("P{port}.{pin} is claimed at byte {place}"),
        None => println!("there is no P{port}.{pin}"),
    }
}

fn inside(table: &[u8]) -> Result<(), Refusal> {
    let count = check(table, READ)?;
    let mut pins = Sheet::new();
    sheet(table, CHIP, &mut pins)?;
    description(&describe(table, READ)?);
    for k in 0..count {
        shown(table, k)?;
    }
    for (port, pin) in [(0, 3), (1, 0), (1, 3), (3, 0)] {
        whose(&pins, port, pin);
    }
    Ok(())
}

/// A case with a fan, an external controller and its tachometer, a zone and a name.
fn build() -> Result<Vec<u8>, Refusal> {
    let mut buffer = vec![0; esa::LONGEST];
    let case = Numbers::new().bytes(0, [2, 1]).four(2, 41).byte(7, 25).bytes(8, [pin(3, 0), UNUSED_PIN, UNUSED_PIN]);
    start(&mut buffer, CHIP, &case)?;
    // The position is unknown; zone 1. A fan with two pulses a turn, and devices on I2C at one bus address.
    let placed = Numbers::new().bytes(0, [0, 0xFF, 0xFF, 0xFF, 1]);
    append(&mut buffer, Kind::Fan, CHIP, &placed.bytes(5, [pin(0, 5), pin(0, 6), 2]), &[])?;
    let device = placed.byte(7, 0x20);
    append(&mut buffer, Kind::PwmController, CHIP, &device, &[5, 1, 7, 0, 12, 0, 12, 2, 7, 0, 40, 0, 8, 0, 1, 0])?;
    append(&mut buffer, Kind::Tachometer, CHIP, &device, &[1, 3, 0, 255, 0, 1, 9, 0, 4, 0])?;
    let mut zone = [0; 27];
    zone[0] = 1;
    append(&mut buffer, Kind::Zone, CHIP, &Numbers::new(), &zone)?;
    let name: Vec<u8> = [1, 9, 4].into_iter().chain("Yard".encode_utf16().flat_map(u16::to_le_bytes)).collect();
    let length = append(&mut buffer, Kind::String, CHIP, &Numbers::new(), &name)?;
    buffer.truncate(length);
    Ok(buffer)
}

fn main() -> ExitCode {
    let table = match std::env::args_os().nth(1).map(std::fs::read) {
        Some(Err(_)) => return ExitCode::from(2),
        Some(Ok(bytes)) => Ok(bytes),
        None => build(),
    };
    match table.and_then(|table| inside(&table)) {
        Ok(()) => ExitCode::SUCCESS,
        Err(refusal) => {
            println!("refused, {refusal}");
            ExitCode::FAILURE
        }
    }
}
