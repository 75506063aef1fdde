//! What a reading goes by: the chip that the board carries, which no table names, and the rules.

/// The chip that the board carries. The C8051F321 lacks P2.4 to P2.7.
#[derive(Clone, Copy, Debug, Default, PartialEq, Eq, Hash)]
pub enum Chip {
    /// The larger one, with all 25 pins.
    #[default]
    C8051F320 = 0,
    /// The smaller one, with 21.
    C8051F321 = 1,
}

/// The ordinary rules, or the archive's, which still have SMBus block mode (bus type 2).
#[derive(Clone, Copy, Debug, Default, PartialEq, Eq, Hash)]
pub enum Rules {
    /// What a table in use keeps: block mode is 23.
    #[default]
    Ordinary = 0,
    /// What an old table was made under.
    Archive = 2,
}

/// Both choices. Calls that take a [`Chip`] alone have one set of rules.
///
/// ```
/// use esa::{check, Chip, Rule, Settings};
/// let old = std::fs::read("../../tables/old-box.esa")?;
/// let refusal = check(&old, Settings::ordinary(Chip::C8051F320)).unwrap_err();
/// assert_eq!(refusal.rule, Rule::Retired);
/// assert_eq!(check(&old, Settings::archive(Chip::C8051F320)), Ok(5));
/// # Ok::<(), std::io::Error>(())
/// ```
#[derive(Clone, Copy, Debug, Default, PartialEq, Eq, Hash)]
pub struct Settings {
    /// Which chip the board carries.
    pub chip: Chip,
    /// By which rules is read.
    pub rules: Rules,
}

impl Settings {
    /// The ordinary rules, for this chip.
    pub const fn ordinary(chip: Chip) -> Settings {
        Settings { chip, rules: Rules::Ordinary }
    }

    /// The archive's rules, for this chip.
    pub const fn archive(chip: Chip) -> Settings {
        Settings { chip, rules: Rules::Archive }
    }

    /// The number of the C face: bit 0 is the chip, bit 1 the rules.
    pub(crate) const fn number(self) -> u64 {
        self.chip as u64 | self.rules as u64
    }
}
