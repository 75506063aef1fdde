//! Two tables side by side: a line for each field in which their records differ, put into a lent buffer. Records are
//! compared and not bytes, each field as it stands in the layout; the archive's rules hold for both tables.

use crate::access::walk;
use crate::answer::Refusal;
use crate::element::id;
use crate::reader::check;
use crate::settings::{Chip, Rules, Settings};

/// Room for every text. The lines of the description have at most 240 bytes, those of an element, parts aside, at most 459 (a
/// digital sensor), and parts in hex two for each byte of both tables: 240 + 96 x 459 + 2 x 2 x 4,080 = 60,624.
pub const DIFF: usize = 65_536;

/// Which of the two tables, counted from 1, is refused, and how.
#[derive(Clone, Copy, Debug, PartialEq, Eq)]
pub struct Refused {
    pub table: u8,
    pub refusal: Refusal,
}

/// Puts the lines at the front of `out` and gives their length; the bytes behind them stay. Or the first table's refusal,
/// or else the second's, by the archive's rules, and then no byte of `out` alters.
pub fn diff(one: &[u8], two: &[u8], chip: Chip, out: &mut [u8; DIFF]) -> Result<usize, Refused> {
    for (table, bytes) in [(1, one), (2, two)] {
        let answer = check(bytes, Settings::new(chip, Rules::Archive)).into_result();
        answer.map_err(|refusal| Refused { table, refusal })?;
    }
    let mut lines = Lines { out, length: 0 };
    lines.fields(DESCRIPTION, (0, one), (0, two));
    let (mut ones, mut twos) = (walk(one), walk(two));
    loop {
        match (ones.next(), twos.next()) {
            (None, None) => return Ok(lines.length),
            (Some(one), Some(two)) if one.1[0] == two.1[0] => lines.elements(one, two),
            (one, two) => lines.kinds(one, two),
        }
    }
}

/// The text itself.
pub fn diff_text(one: &[u8], two: &[u8], chip: Chip) -> Result<Vec<u8>, Refused> {
    let mut out = Box::new([0; DIFF]);
    let length = diff(one, two, chip, &mut out)?;
    Ok(out[..length].to_vec())
}

/// How a field stands in the bytes of its element.
#[derive(Clone, Copy)]
enum Form {
    Byte,
    /// Two bytes or three, lowest first.
    Word,
    Serial,
    /// The upper bits of a byte from this one on, or the lower ones up to it.
    Upper(u32),
    Lower(u32),
    Pin,
    /// By the bus type, which stands in the byte before: a pin, or the upper seven bits.
    Address,
    /// From there to the element's end.
    Part,
}

use Form::{Address, Byte, Lower, Part, Pin, Serial, Upper, Word};

/// Name, offset in the element, form.
type Field = (&'static str, usize, Form);

/// What a field holds, as far as it is in the record.
#[derive(PartialEq, Eq)]
enum Content<'t> {
    Number(u32),
    Pin(u8),
    Part(&'t [u8]),
}

const DESCRIPTION: &[Field] = &[
    ("esa device type", 3, Byte),
    ("string index", 4, Byte),
    ("serial number", 5, Serial),
    ("spwr", 8, Upper(7)),
    ("power units", 8, Lower(7)),
    ("hardware revision 0", 9, Pin),
    ("hardware revision 1", 10, Pin),
    ("hardware revision 2", 11, Pin),
];

/// Of all kinds but zones and strings, before their own.
const COMMON: &[Field] = &[
    ("string index", 3, Byte),
    ("x pos", 4, Byte),
    ("y pos", 5, Byte),
    ("z pos", 6, Byte),
    ("zone identifier", 7, Byte),
];

const DIGITAL_SENSOR: &[Field] = &[
    ("bus type", 8, Lower(4)),
    ("device address", 9, Address),
    ("temperature lsb read register", 11, Word),
    ("temperature msb read register", 13, Word),
    ("minimum value", 15, Word),
    ("minimum temp", 17, Byte),
    ("maximum value", 18, Word),
    ("maximum temp", 20, Byte),
];

const ANALOGUE_SENSOR: &[Field] = &[
    ("thermal analog type", 8, Lower(4)),
    ("pin", 9, Pin),
    ("value0", 10, Word),
    ("value25", 12, Word),
    ("value50", 14, Word),
    ("value75", 16, Word),
    ("value100", 18, Word),
];

/// A pump has them too.
const FAN: &[Field] = &[
    ("pwm", 8, Pin),
    ("tach", 9, Pin),
    ("ppr", 10, Byte),
    ("minimum rpm", 11, Word),
    ("maximum rpm", 13, Word),
    ("minimum duty cycle", 15, Byte),
];

const STATUS_LED: &[Field] = &[
    ("pin1", 8, Pin),
    ("color1", 9, Upper(4)),
    ("purpose1", 9, Lower(4)),
    ("pin2", 10, Pin),
    ("color2", 11, Upper(4)),
    ("purpose2", 11, Lower(4)),
    ("pin3", 12, Pin),
    ("color3", 13, Upper(4)),
    ("purpose3", 13, Lower(4)),
];

const WATER_LEVEL: &[Field] = &[
    ("pin", 8, Pin),
    ("full", 9, Word),
    ("empty", 11, Word),
    ("warning", 13, Word),
];

const VOLTAGE: &[Field] = &[("pin", 8, Pin), ("vmax", 9, Byte), ("vmin", 10, Byte)];

/// Byte 9 is reserved.
const CURRENT: &[Field] = &[("pin", 8, Pin), ("imin", 10, Word), ("imax", 12, Word)];

const CONTROLLER: &[Field] = &[
    ("bus type", 8, Lower(4)),
    ("device address", 9, Address),
    ("variable part", 11, Part),
];

/// Byte 11 is reserved.
const TACHOMETER: &[Field] = &[
    ("bus type", 8, Lower(4)),
    ("device address", 9, Address),
    ("variable part", 12, Part),
];

const EXTERNAL_RGB: &[Field] = &[
    ("bus type", 8, Lower(4)),
    ("device address", 9, Address),
    ("chip identifier", 11, Byte),
    ("variable part", 12, Part),
];

const RGB_LED: &[Field] = &[("red", 8, Pin), ("green", 9, Pin), ("blue", 10, Pin)];

/// All bytes after the header.
const CONTENT: &[Field] = &[("variable part", 3, Part)];

/// The fields of a kind, in layout order: those that all have, and its own.
fn fields(identifier: u8) -> [&'static [Field]; 2] {
    let own = match identifier {
        id::ZONE | id::TEXT => return [&[], CONTENT],
        id::DIGITAL_SENSOR => DIGITAL_SENSOR,
        id::ANALOGUE_SENSOR => ANALOGUE_SENSOR,
        id::FAN | id::PUMP => FAN,
        id::STATUS_LED => STATUS_LED,
        id::WATER_LEVEL => WATER_LEVEL,
        id::VOLTAGE => VOLTAGE,
        id::CURRENT => CURRENT,
        id::CONTROLLER => CONTROLLER,
        id::TACHOMETER => TACHOMETER,
        id::EXTERNAL_RGB => EXTERNAL_RGB,
        _ => RGB_LED,
    };
    [COMMON, own]
}

fn content(bytes: &[u8], at: usize, form: Form) -> Content<'_> {
    let byte = u32::from(bytes[at]);
    match form {
        Byte => Content::Number(byte),
        Word => Content::Number(byte + 256 * u32::from(bytes[at + 1])),
        Serial => Content::Number(u32::from_le_bytes([
            bytes[at],
            bytes[at + 1],
            bytes[at + 2],
            0,
        ])),
        Upper(bits) => Content::Number(byte >> bits),
        Lower(bits) => Content::Number(byte & ((1 << bits) - 1)),
        Pin => Content::Pin(bytes[at]),
        Address if bytes[at - 1] & 0x0F == 3 => Content::Pin(bytes[at]),
        Address => Content::Number(byte >> 1),
        Part => Content::Part(&bytes[at..]),
    }
}

/// An element, or the description, with its offset.
type Placed<'t> = (usize, &'t [u8]);

/// The text so far. No byte behind it is touched.
struct Lines<'o> {
    out: &'o mut [u8; DIFF],
    length: usize,
}

impl Lines<'_> {
    fn put(&mut self, bytes: &[u8]) {
        self.out[self.length..self.length + bytes.len()].copy_from_slice(bytes);
        self.length += bytes.len();
    }

    fn number(&mut self, number: u32) {
        if number >= 10 {
            self.number(number / 10);
        }
        self.put(&[b'0' + (number % 10) as u8]);
    }

    fn hex(&mut self, byte: u8) {
        let digit = |half: u8| b"0123456789ABCDEF"[usize::from(half)];
        self.put(&[digit(byte >> 4), digit(byte & 0x0F)]);
    }

    /// Two elements of one kind.
    fn elements(&mut self, one: Placed, two: Placed) {
        for list in fields(one.1[0]) {
            self.fields(list, one, two);
        }
    }

    fn fields(&mut self, list: &[Field], one: Placed, two: Placed) {
        for &(name, at, form) in list {
            let first = content(one.1, at, form);
            let second = content(two.1, at, form);
            if first != second {
                self.line(Some(one.0), Some(two.0), name);
                self.content(first);
                self.put(b"\t");
                self.content(second);
                self.put(b"\n");
            }
        }
    }

    /// A pair of different kinds, or an element without a partner.
    fn kinds(&mut self, one: Option<Placed>, two: Option<Placed>) {
        let place = |element: Option<Placed>| element.map(|(place, _)| place);
        self.line(place(one), place(two), "kind");
        self.kind(one);
        self.put(b"\t");
        self.kind(two);
        self.put(b"\n");
    }

    fn kind(&mut self, element: Option<Placed>) {
        match element {
            Some((_, bytes)) => self.hex(bytes[0]),
            None => self.put(b"-"),
        }
    }

    /// A line up to its contents.
    fn line(&mut self, one: Option<usize>, two: Option<usize>, name: &str) {
        self.put(b"D\t");
        for place in [one, two] {
            match place {
                Some(place) => self.number(place as u32),
                None => self.put(b"-"),
            }
            self.put(b"\t");
        }
        self.put(name.as_bytes());
        self.put(b"\t");
    }

    fn content(&mut self, content: Content) {
        match content {
            Content::Number(number) => self.number(number),
            Content::Pin(0xFF) => self.put(b"-"),
            Content::Pin(pin) => self.put(&[b'P', b'0' + (pin >> 4), b'.', b'0' + (pin & 0x0F)]),
            Content::Part(bytes) => bytes.iter().for_each(|&byte| self.hex(byte)),
        }
    }
}
