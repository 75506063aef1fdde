//! What comes back: what a call says of itself, or a refusal with the number of its rule and its place.

use std::fmt;

/// The refusals, each with the paper's number as its discriminant.
#[derive(Clone, Copy, Debug, PartialEq, Eq, Hash, PartialOrd, Ord)]
#[repr(u8)]
pub enum Rule {
    /// Fewer than 16 bytes; place 0.
    Under16Bytes = 1,
    /// Byte 0 is not 01h; place 0.
    Revision = 2,
    /// The table's length differs from the bytes lent, or is over 4,096; place 0. Of [`append`](crate::append): the length so far
    /// is under 16, over 4,096 or past the buffer.
    TableLength = 3,
    /// The device type is not 1, 2 or 3; place 0.
    DeviceType = 4,
    /// SPWR 0 and power units over 125; place 0.
    Power = 5,
    /// No room for a header, or an element length under 3 or past the end; place of the element.
    ElementLength = 6,
    /// Not one of the fourteen identifiers; place of the element.
    Identifier = 7,
    /// The length differs from the layout, the blocks do not fill it, or 09h has over 6 of them or none; place of the element.
    Layout = 8,
    /// A reserved code, a number that may not stand in its field, or a text that is not well-formed UTF-16; place of the element.
    Code = 9,
    /// A pin that does not exist, is not on the chip, is not permitted there or stands out of order; place of the element, or 0.
    Pin = 10,
    /// A 97th element, or a 13th zone; place of the element.
    TooMany = 11,
    /// A string or zone number a second time; place of the element.
    Twice = 12,
    /// The zone of an element has no descriptor; place of the element.
    NoZone = 13,
    /// A string index that is not 0 and has no string; place of the element, or 0.
    NoString = 14,
    /// A pin is claimed twice; place of the later claim's element, or 0.
    Clash = 15,
    /// Writing: no room for it; place 0.
    NoRoom = 16,
    /// There is no such element; in a part no such block or pair; place 0.
    PastTheLast = 17,
    /// A trace: the element has no reading for the count; its place is the number of the line.
    NoReading = 18,
    /// A trace: a line that is malformed, past 1,000,000, or has too many pulses; its place is the number of the line.
    TraceLine = 19,
    /// Receiving: a piece or an end after the end; place 0.
    AfterTheEnd = 20,
    /// A line that is not Intel HEX as it is taken here; its place is the line's number, from 1.
    Hex = 21,
    /// Something still names the zone or string that was to go; place of the element.
    StillNamed = 22,
    /// Bus type 2, SMBus block mode, by the ordinary rules; place of the element.
    Retired = 23,
    /// Salvage: the description itself cannot be saved; place 0.
    Lost = 24,
    /// Writing: a number is too large for its field; place 0.
    TooLarge = 25,
}

impl Rule {
    /// Every rule, in the order of their numbers.
    pub const ALL: [Rule; 25] = [
        Rule::Under16Bytes,
        Rule::Revision,
        Rule::TableLength,
        Rule::DeviceType,
        Rule::Power,
        Rule::ElementLength,
        Rule::Identifier,
        Rule::Layout,
        Rule::Code,
        Rule::Pin,
        Rule::TooMany,
        Rule::Twice,
        Rule::NoZone,
        Rule::NoString,
        Rule::Clash,
        Rule::NoRoom,
        Rule::PastTheLast,
        Rule::NoReading,
        Rule::TraceLine,
        Rule::AfterTheEnd,
        Rule::Hex,
        Rule::StillNamed,
        Rule::Retired,
        Rule::Lost,
        Rule::TooLarge,
    ];

    /// The number of the rule, 1 to 25.
    ///
    /// ```
    /// assert_eq!(esa::Rule::NoZone.number(), 13);
    /// ```
    pub const fn number(self) -> u8 {
        self as u8
    }

    /// The rule with this number.
    ///
    /// ```
    /// use esa::Rule;
    /// assert_eq!(Rule::of(13), Some(Rule::NoZone));
    /// assert_eq!(Rule::of(0), None);
    /// ```
    pub fn of(number: u8) -> Option<Rule> {
        Rule::ALL.into_iter().find(|rule| rule.number() == number)
    }

    /// The same as a sentence, as `esa_words` of the header has it.
    ///
    /// ```
    /// assert_eq!(esa::Rule::Clash.sentence(), "a pin is claimed a second time");
    /// ```
    pub const fn sentence(self) -> &'static str {
        match self {
            Rule::Under16Bytes => "fewer than 16 bytes",
            Rule::Revision => "the revision is not 0.90",
            Rule::TableLength => "the table's length is not that of the bytes, or not a length of a table",
            Rule::DeviceType => "the device type is not 1, 2 or 3",
            Rule::Power => "more than 125 power units without SPWR",
            Rule::ElementLength => "an element is cut short, or its length is under 3 or past the end",
            Rule::Identifier => "the identifier is none of the fourteen",
            Rule::Layout => {
                "the length of an element is not that of its layout, or its blocks do not fill it, or are too many or none"
            }
            Rule::Code => "a reserved code, a number that may not stand there, or a text that is not well-formed",
            Rule::Pin => "a pin that does not exist, is not on the chip, is not permitted there, or stands out of order",
            Rule::TooMany => "more than 96 elements or 12 zones",
            Rule::Twice => "a string or zone number a second time",
            Rule::NoZone => "the zone of an element has no descriptor",
            Rule::NoString => "a string index has no string",
            Rule::Clash => "a pin is claimed a second time",
            Rule::NoRoom => "no room for it",
            Rule::PastTheLast => "there is no such element, block or pair",
            Rule::NoReading => "the element has no reading for this count",
            Rule::TraceLine => "a line of a trace that is malformed, past 1,000,000, or has too many pulses",
            Rule::AfterTheEnd => "the end has been called, and nothing more is received",
            Rule::Hex => "a line that is not Intel HEX as it is taken here",
            Rule::StillNamed => "something still names it",
            Rule::Retired => "a bus type that is retired",
            Rule::Lost => "the description itself cannot be saved",
            Rule::TooLarge => "a number is too large for its field",
        }
    }
}

/// A refusal: the first rule that is broken, and where. It prints as number, place and sentence.
#[derive(Clone, Copy, Debug, PartialEq, Eq, Hash)]
pub struct Refusal {
    /// The rule, with its number and its sentence.
    pub rule: Rule,
    /// The offset of the element in the table, or 0; of [`Rule::Hex`] the number of the line.
    pub place: usize,
}

impl Refusal {
    /// The number of the rule, 1 to 25.
    pub const fn number(self) -> u8 {
        self.rule.number()
    }
}

impl fmt::Display for Refusal {
    fn fmt(&self, to: &mut fmt::Formatter) -> fmt::Result {
        write!(to, "{} at {}: {}", self.number(), self.place, self.rule.sentence())
    }
}

impl std::error::Error for Refusal {}

/// Bits 7-0 of an answer are the number, 0 for success; what stands beside it is above them.
pub(crate) fn unpacked(answer: u64) -> Result<u64, Refusal> {
    let beside = answer >> 8;
    match (answer & 0xFF) as u8 {
        0 => Ok(beside),
        number => Err(Refusal { rule: named(number), place: beside as usize }),
    }
}

/// The same of a call whose success says a plain number.
pub(crate) fn counted(answer: u64) -> Result<usize, Refusal> {
    unpacked(answer).map(|beside| beside as usize)
}

/// The rule of a number that the archive gave. It gives no other: that is proved, and so nothing is left to handle.
pub(crate) fn named(number: u8) -> Rule {
    Rule::of(number)
        .unwrap_or_else(|| panic!("the archive answered {number}, which is no refusal: it is another one than this crate's"))
}

/// The front of a text that the archive wrote: ASCII, as every text of its is.
pub(crate) fn front(mut text: Vec<u8>, length: usize) -> String {
    text.truncate(length);
    String::from_utf8(text).expect("the archive writes ASCII")
}
