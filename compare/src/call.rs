//! The calls of the proved library: how each is asked for, and what the second program answers.

use crate::answer::Answer;
use crate::outcome::Outcome;
use second::Settings;
use std::fmt;

#[derive(Clone, Copy, Debug, PartialEq, Eq)]
pub enum Call {
    Check,
    /// Answers the identifier of element k.
    Element(u64),
    /// Answers the length of element k's variable part; 0 with a refusal, whose part is empty.
    Part(u64),
    /// Answers the length of the listing and gives its text.
    List,
}

impl Call {
    /// The call of a mode of the driver; of the other modes none.
    pub fn of(mode: u8, k: u64) -> Option<Call> {
        Some(match mode {
            0 => Call::Check,
            1 => Call::Element(k),
            2 => Call::Part(k),
            6 => Call::List,
            _ => return None,
        })
    }

    /// The driver's mode; calls of one mode are counted together.
    pub fn mode(self) -> u8 {
        match self {
            Call::Check => 0,
            Call::Element(_) => 1,
            Call::Part(_) => 2,
            Call::List => 6,
        }
    }

    pub fn name(self) -> &'static str {
        match self {
            Call::Check => "esa_check",
            Call::Element(_) => "esa_element",
            Call::Part(_) => "esa_part_length",
            Call::List => "esa_list",
        }
    }

    fn argument(self) -> u64 {
        match self {
            Call::Check | Call::List => 0,
            Call::Element(k) | Call::Part(k) => k,
        }
    }

    /// Adds the request: mode, length, argument, settings, bytes.
    pub fn request(self, table: &[u8], settings: u64, to: &mut Vec<u8>) {
        to.push(self.mode());
        to.extend_from_slice(&(table.len() as u32).to_le_bytes());
        to.extend_from_slice(&self.argument().to_le_bytes());
        to.extend_from_slice(&settings.to_le_bytes());
        to.extend_from_slice(table);
    }

    /// What the second program answers, and its text where there is one.
    pub fn second(self, table: &[u8], settings: u64) -> Outcome {
        let settings = Settings::of_number(settings);
        match self {
            Call::Check => {
                let verdict = second::check(table, settings);
                Answer::of(verdict.number(), verdict.beside()).into()
            }
            Call::Element(k) => element(table, k, settings).into(),
            Call::Part(k) => part(table, k, settings).into(),
            Call::List => {
                let buffer = second::listing(table, settings);
                let answer = Answer::of(0, buffer.len());
                Outcome { answer, buffer }
            }
        }
    }
}

/// No table has so many elements, and no part so many blocks, that the greatest usize is one of them.
pub fn index(k: u64) -> usize {
    usize::try_from(k).unwrap_or(usize::MAX)
}

fn element(table: &[u8], k: u64, settings: Settings) -> Answer {
    let element = second::element(table, index(k), settings);
    Answer::from(element.map(|record| usize::from(record.identifier())))
}

fn part(table: &[u8], k: u64, settings: Settings) -> Answer {
    Answer::of(0, second::part(table, index(k), settings).len())
}

impl fmt::Display for Call {
    fn fmt(&self, to: &mut fmt::Formatter) -> fmt::Result {
        match self {
            Call::Check => to.write_str("check"),
            Call::Element(k) => write!(to, "element {k}"),
            Call::Part(k) => write!(to, "part of element {k}"),
            Call::List => to.write_str("listing"),
        }
    }
}
