//! A tour of the library from Rust, by the crate bindings/rust: is a file a table, what stands in it, is there a fan in a zone, how a
//! new one is written, which pins are taken, how it is written again and moved to Intel HEX and back; a lamp that one of the two chips
//! has no pin for; an old sensor that the archive's rules alone take; a lamp of three colours on a chip of its own; what an element is
//! called; how a part is taken out; what was altered in a table; a recording from the bench; and what is saved of a damaged table.
//! tour [FILE]      without FILE it looks at a table of its own. examples/run compiles it.

use esa::{Chip, Kind, Label, Numbers, Refusal, Settings, Sheet, Trace, UNUSED_PIN};
use std::fmt::Display;
use std::process::ExitCode;

/// The chip that this board carries.
const CHIP: Chip = Chip::C8051F320;
const READ: Settings = Settings::ordinary(CHIP);
const OLD: Settings = Settings::archive(CHIP);

/// What a call says of itself, or a refusal.
type Answer<T> = Result<T, Refusal>;

/// Prints an answer in words; `beside` says what a success gives.
fn told<T: Display>(what: &str, answer: Answer<T>, beside: &str) -> Answer<T> {
    match &answer {
        Ok(n) => println!("{what}: good, {n} {beside}"),
        Err(refusal) => println!("{what}: refused, {refusal}"),
    }
    answer
}

/// The elements of an accepted table, each with its place and its variable part.
fn walk(table: &[u8], count: usize) -> Answer<()> {
    let mut at = 16; // the first element stands behind the description
    for k in 0..count {
        let (kind, numbers) = esa::fields(table, k, READ)?;
        let part = esa::part(table, k, READ)?;
        let (length, place) = (part.len(), part.start);
        println!("  element {k} at {at}: {kind}, variable part of {length} bytes at {place}");
        if kind == Kind::Fan {
            println!("    in zone {}, {} to {} RPM", numbers.byte_at(4), numbers.two_at(8), numbers.two_at(10));
        }
        at = part.end; // the part ends the element
    }
    let _ = told("  one more", esa::element(table, count, READ), "");
    Ok(())
}

/// Is there a fan in this zone? The walk ends at the first one.
fn fan_in(table: &[u8], zone: u8) {
    match esa::fan(table, zone, READ) {
        Ok(fan) => println!("a fan in zone {zone}: {}, visited: {}", if fan.found { "yes" } else { "no" }, fan.visited),
        Err(refusal) => println!("a fan: refused, {refusal}"),
    }
}

/// Which pins are taken, and by whom? The lines of the sheet's text that do not say that a pin is free.
fn taken(sheet: &Sheet) {
    for line in esa::sheet_text(sheet, CHIP).lines() {
        if !line.ends_with('-') {
            println!("  {line}");
        }
    }
}

/// A table with a fan and its zone; without the zone it is refused. Gives the length.
fn build(buffer: &mut [u8]) -> Answer<usize> {
    // A computer case: serial number 7, SPWR, no hardware revision pins.
    let description = Numbers::new().byte(0, 2).four(2, 7).byte(6, 1).bytes(8, [UNUSED_PIN; 3]);
    let fan = Numbers::new()
        .bytes(0, [0, 0xFF, 0xFF, 0xFF, 1]) // no string, position unknown, zone 1
        .bytes(5, [esa::pin(0, 5), esa::pin(0, 6), 2]) // PWM, tachometer, 2 pulses
        .two(8, 300)
        .two(10, 1500)
        .byte(12, 0x40);

    let mut zone = [0; 27]; // all bytes after the header
    zone[0] = 1;

    told("started", esa::start(buffer, CHIP, &description), "bytes")?;
    let length = told("fan appended", esa::append(buffer, Kind::Fan, CHIP, &fan, &[]), "bytes")?;
    let _ = told("is it a table", esa::check(&buffer[..length], READ), "elements");
    told("zone appended", esa::append(buffer, Kind::Zone, CHIP, &Numbers::new(), &zone), "bytes")
}

/// A lamp on P2.7, which the smaller chip lacks: the table is good for the C8051F320 alone. A record is written for the chip
/// that its byte 31 names, and for no other.
fn lamp(buffer: &mut [u8]) -> Answer<usize> {
    use Chip::{C8051F320, C8051F321};
    let lamp = Numbers::new()
        .bytes(0, [0, 0xFF, 0xFF, 0xFF, 1, esa::pin(2, 7), 2, 1]) // zone 1, green, good
        .byte(8, UNUSED_PIN)
        .byte(11, UNUSED_PIN);
    let small = lamp.byte(31, C8051F321 as u8);
    let answer = esa::append(buffer, Kind::StatusLed, C8051F320, &small, &[]);
    let _ = told("a lamp for the 321 appended", answer, "bytes");
    let answer = esa::append(buffer, Kind::StatusLed, C8051F320, &lamp, &[]);
    let length = told("a lamp for the 320 appended", answer, "bytes")?;
    let table = &buffer[..length];
    let (large, small) = (Settings::ordinary(C8051F320), Settings::ordinary(C8051F321));
    let _ = told("is it a table for the 320", esa::check(table, large), "elements");
    let _ = told("is it a table for the 321", esa::check(table, small), "elements");
    Ok(length)
}

/// A sensor on SMBus block mode, which is retired: only a table of old has one, and only the archive's rules read it.
fn sensor(buffer: &mut [u8], written: usize) -> Answer<()> {
    let old = Numbers::new().bytes(0, [0, 0xFF, 0xFF, 0xFF, 1, 2, 0, 0x48]); // zone 1, block mode, bus address 48h
    let answer = esa::append(buffer, Kind::DigitalSensor, CHIP, &old, &[]);
    let _ = told("a sensor on block mode appended", answer, "bytes");
    let answer = esa::append(buffer, Kind::DigitalSensor, CHIP, &old.byte(5, 1), &[]); // SMBus byte mode
    let length = told("a sensor on byte mode appended", answer, "bytes")?;
    buffer[written + 8] = 2; // its bus type, as an old tool wrote it
    let table = &buffer[..length];
    let _ = told("is it a table in use", esa::check(table, READ), "elements");
    let _ = told("is it a table of the archive", esa::check(table, OLD), "elements");
    print!("{}", esa::list(table, OLD));
    Ok(())
}

/// An RGB LED on a chip of its own, an NXP PCA9633 at the I2C address 62h. Its variable part has a block for each colour: the
/// number of its register pairs, and the pairs, each an address and the data.
fn colours(buffer: &mut [u8]) -> Answer<()> {
    let numbers = Numbers::new().bytes(0, [0, 0xFF, 0xFF, 0xFF, 1, 0, 0, 0x62, 2]); // zone 1, I2C, bus address, the chip
    let part = [1, 2, 0, 0x40, 0, 2, 3, 0, 0x40, 0, 8, 0, 0xAA, 0, 0];
    let answer = esa::append(buffer, Kind::ExternalRgbLed, CHIP, &numbers, &part);
    told("an RGB LED outside appended", answer, "bytes")?;
    for (w, name) in ["red", "green", "blue"].into_iter().enumerate() {
        let mut pairs = Vec::new();
        for i in 0..esa::colours(&part, w)? {
            let pair = esa::colour(&part, w, i)?;
            pairs.push(format!("register {} is {}", pair.address, pair.data));
        }
        if pairs.is_empty() {
            pairs.push("no register".to_string());
        }
        println!("  {name}: {}", pairs.join(", "));
    }
    Ok(())
}

/// The label of element k.
fn label(table: &[u8], k: usize) -> Answer<()> {
    let label = esa::label(table, k, READ, b"nameless")?;
    match label {
        Label::Text { place, .. } => {
            println!("  element {k} is called {}, by byte {place} of the table", label.read().unwrap_or_default());
        }
        Label::Lent(name) => {
            let name = String::from_utf8_lossy(name);
            println!("  element {k} is called {name}, as no string says otherwise");
        }
    }
    Ok(())
}

/// A fan, its zone, which string 1 names, and that string; and a text that ends with half a character.
fn names(buffer: &mut [u8]) -> Answer<()> {
    let mut zone = [0; 27];
    zone[..2].copy_from_slice(&[1, 1]);
    let text = [1, 9, 4, b'F', 0, b'r', 0, b'o', 0, b'n', 0, b't', 0];
    let half = [2, 9, 4, 0x3C, 0xD8];
    buffer[..32].copy_from_slice(&own_table()[..32]);
    buffer[1] = 32;
    esa::append(buffer, Kind::Zone, CHIP, &Numbers::new(), &zone)?;
    let answer = esa::append(buffer, Kind::String, CHIP, &Numbers::new(), &text);
    let length = told("a name appended", answer, "bytes")?;
    for k in 0..4 {
        if let Err(refusal) = label(&buffer[..length], k) {
            println!("  label: refused, {refusal}");
        }
    }
    let answer = esa::append(buffer, Kind::String, CHIP, &Numbers::new(), &half);
    let _ = told("half a character appended", answer, "bytes");
    Ok(())
}

/// Somebody unplugs things. A zone that a fan still names cannot go; with the fan taken out first it can.
fn take_out(table: &mut [u8]) -> Answer<()> {
    let _ = told("the zone taken out", esa::remove(table, 1, CHIP), "bytes");
    let length = told("the fan taken out", esa::remove(table, 0, CHIP), "bytes")?;
    told("the zone taken out", esa::remove(&mut table[..length], 0, CHIP), "bytes")?;
    Ok(())
}

/// Last month's table and this month's: the fan was moved to zone 2, and its zone with it; and a table that breaks a rule.
fn side_by_side(other: &mut [u8]) {
    other[23] = 2;
    other[35] = 2;
    if let Ok(text) = esa::diff(&own_table(), other, CHIP) {
        println!("what was altered: good, {} bytes of text", text.len());
        print!("{text}");
    }
    other[23] = 3;
    if let Err(refused) = esa::diff(&own_table(), other, CHIP) {
        let (number, place) = (refused.refusal.number(), refused.refusal.place);
        println!("with no zone 3: table {} is refused, {number} at {place}", refused.side as u8);
    }
}

/// A recording from the bench, cut in two: pulses of the fan twice, an element that is not there, the zone, which has no reading, and
/// what is no line. The last line has no line feed, so it is answered at the end.
fn recorded() -> Answer<()> {
    let bytes = b"0\t0\t40\n0\t9\t1\n1\t1\t3\nno line\n2\t0\t25";
    let table = own_table();
    let mut trace = Trace::start(&table, CHIP)?;
    let _ = told("a trace begins", esa::check(&table, READ), "elements");
    let mut lines = String::new();
    trace.piece(&bytes[..10], &mut lines);
    trace.piece(&bytes[10..], &mut lines);
    trace.end(&mut lines);
    print!("{lines}");
    Ok(())
}

/// A damaged table: the zone's identifier is lost, and with it the zone of the fan; then the device type too, and nothing can be saved.
fn damaged(table: &mut [u8]) {
    let mut out = [0; esa::LONGEST];
    table[32] = 0x4B;
    if let Ok(saved) = esa::salvage(table, CHIP, &mut out) {
        println!("what is left: {} bytes", saved.length);
        print!("{}", saved.lines);
    }
    table[3] = 9;
    let left = esa::salvage(table, CHIP, &mut out).map(|saved| saved.length);
    let _ = told("with device type 9", left, "bytes");
}

/// Writes a table again: the same table, but for its reserved places, which become zero.
fn again(table: &[u8]) -> Answer<()> {
    let mut out = [0; esa::LONGEST];
    told("written again", esa::rewrite(table, CHIP, &mut out), "bytes")?;
    for (i, (old, new)) in table.iter().zip(out).enumerate() {
        if *old != new {
            println!("  byte {i}: {old:02X}, now {new:02X}");
        }
    }
    Ok(())
}

/// The table as Intel HEX, which a programmer takes, and back; and what is said of the text without its last line.
fn moved(table: &[u8]) -> Answer<()> {
    let mut text = [0; esa::LONGEST_TEXT];
    let mut back = [0; esa::LONGEST];
    let length = told("as Intel HEX", esa::hex(table, CHIP, &mut text), "characters")?;
    let text = &text[..length];
    print!("{}", String::from_utf8_lossy(text));
    let _ = told("and back", esa::unhex(text, CHIP, &mut back), "bytes");
    let cut = &text[..length - ":00000001FF\n".len()];
    let _ = told("without its last line", esa::unhex(cut, CHIP, &mut back), "bytes");
    Ok(())
}

/// A computer case with one fan in zone 1.
fn own_table() -> Vec<u8> {
    // revision 0.90, 62 bytes, type 2, no string, serial number 7, own power, no hardware revision pins
    let description = [0x01, 62, 0, 2, 0, 7, 0, 0, 0x80, 0xFF, 0xFF, 0xFF, 0, 0, 0, 0];
    // 16 bytes, position unknown, zone 1, PWM on P0.5, tachometer on P0.6, 2 pulses, 300 to 1,500 RPM
    let fan = [0x03, 16, 0, 0, 0xFF, 0xFF, 0xFF, 1, 0x05, 0x06, 2, 0x2C, 0x01, 0xDC, 0x05, 0x40];
    // 30 bytes, zone 1; the curve is all zeros
    let zone = [0x0B, 30, 0, 1];
    [&description[..], &fan, &zone, &[0; 26]].concat()
}

/// The whole tour; gives whether the table was accepted.
fn tour(table: &[u8]) -> Answer<bool> {
    println!("a table of {} bytes", table.len());
    let answer = told("is it a table", esa::check(table, READ), "elements");
    if let Ok(count) = answer {
        walk(table, count)?;
    }
    print!("{}", esa::list(table, READ));
    fan_in(table, 1);
    fan_in(table, 2);

    println!("\na table of our own");
    let mut buffer = [0; 128];
    let length = build(&mut buffer)?;
    told("is it a table", esa::check(&buffer[..length], READ), "elements")?;

    let mut sheet = Sheet::new();
    told("its sheet of pins", esa::sheet(&buffer[..length], CHIP, &mut sheet), "elements")?;
    taken(&sheet);

    println!("\nthe same with a reserved place in use");
    buffer[12] = 0xA5;
    again(&buffer[..length])?;
    moved(&buffer[..length])?;

    println!("\nthe same with a lamp on P2.7");
    let length = lamp(&mut buffer)?;
    let table = &buffer[..length];
    let small = esa::sheet_forward(table, Chip::C8051F321, &mut sheet);
    let _ = told("the sheet brought forward for the 321", small, "elements");
    let large = esa::sheet_forward(table, Chip::C8051F320, &mut sheet);
    told("the sheet brought forward for the 320", large, "elements")?;
    taken(&sheet);

    println!("\nthe same with an old sensor");
    sensor(&mut buffer, length)?;

    println!("\nthe same with a lamp of three colours");
    colours(&mut buffer)?;

    println!("\na table with a name");
    names(&mut buffer)?;

    println!("\na table with parts taken out");
    take_out(&mut own_table())?;

    println!("\ntwo tables side by side");
    side_by_side(&mut own_table());

    println!("\na recording from the bench");
    recorded()?;

    println!("\na damaged table");
    damaged(&mut own_table());
    Ok(answer.is_ok())
}

fn main() -> ExitCode {
    let table = match std::env::args_os().nth(1) {
        None => Ok(own_table()),
        Some(name) => std::fs::read(name),
    };
    match table.map(|bytes| tour(&bytes)) {
        Ok(Ok(true)) => ExitCode::SUCCESS,
        Ok(_) => ExitCode::from(1),
        Err(why) => {
            eprintln!("tour: {why}");
            ExitCode::from(2)
        }
    }
}
