//! What a caller chooses for a reading, as the table does not say it.

use std::fmt;

/// The two microcontrollers (000, 5.1).
#[derive(Clone, Copy, Debug, Default, PartialEq, Eq, Hash)]
pub enum Chip {
    /// C8051F320.
    #[default]
    F320,
    /// C8051F321, which lacks four of the 320's pins.
    F321,
}

impl Chip {
    pub const BOTH: [Chip; 2] = [Chip::F320, Chip::F321];

    /// The one that this one is not.
    pub fn other(self) -> Chip {
        match self {
            Chip::F320 => Chip::F321,
            Chip::F321 => Chip::F320,
        }
    }

    /// The digits that name it on the command line.
    pub fn digits(self) -> &'static str {
        match self {
            Chip::F320 => "320",
            Chip::F321 => "321",
        }
    }
}

/// The bus type of 000, Table 8, that new firmware drops: SMBUS with block mode.
pub const BLOCK_MODE: u8 = 2;

/// Which bus types are in use.
#[derive(Clone, Copy, Debug, Default, PartialEq, Eq, Hash)]
pub enum Rules {
    /// Block mode is retired.
    #[default]
    Ordinary,
    /// The old rules, for old tables.
    Archive,
}

impl Rules {
    pub const BOTH: [Rules; 2] = [Rules::Ordinary, Rules::Archive];

    /// The ones that these are not.
    pub fn other(self) -> Rules {
        match self {
            Rules::Ordinary => Rules::Archive,
            Rules::Archive => Rules::Ordinary,
        }
    }

    /// The bus types in use.
    pub fn buses(self) -> &'static [u8] {
        match self {
            Rules::Ordinary => &[0, 1, 3],
            Rules::Archive => &[0, 1, BLOCK_MODE, 3],
        }
    }
}

/// Both choices together.
#[derive(Clone, Copy, Debug, Default, PartialEq, Eq, Hash)]
pub struct Settings {
    pub chip: Chip,
    pub rules: Rules,
}

impl Settings {
    /// All four, each at its number.
    pub const ALL: [Settings; 4] = [
        Settings::new(Chip::F320, Rules::Ordinary),
        Settings::new(Chip::F321, Rules::Ordinary),
        Settings::new(Chip::F320, Rules::Archive),
        Settings::new(Chip::F321, Rules::Archive),
    ];

    pub const fn new(chip: Chip, rules: Rules) -> Settings {
        Settings { chip, rules }
    }

    /// As the C face has them: bit 0 set is the 321, bit 1 the archive's rules, and all other bits are ignored.
    pub fn of_number(number: u64) -> Settings {
        Settings::ALL[(number & 3) as usize]
    }

    pub fn number(self) -> u64 {
        self.chip as u64 + 2 * self.rules as u64
    }

    /// The same chip by the other rules.
    pub fn other_rules(self) -> Settings {
        Settings::new(self.chip, self.rules.other())
    }

    /// The other chip by the same rules.
    pub fn other_chip(self) -> Settings {
        Settings::new(self.chip.other(), self.rules)
    }
}

/// By the ordinary rules.
impl From<Chip> for Settings {
    fn from(chip: Chip) -> Settings {
        Settings::new(chip, Rules::Ordinary)
    }
}

impl fmt::Display for Settings {
    fn fmt(&self, to: &mut fmt::Formatter) -> fmt::Result {
        let rules = match self.rules {
            Rules::Ordinary => "",
            Rules::Archive => ", archive",
        };
        write!(to, "{}{rules}", self.chip.digits())
    }
}
