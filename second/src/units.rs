//! The units the specification names, kept apart from each other and from plain numbers.

/// 000, 7.3: a distance from the datum point.
#[derive(Clone, Copy, Debug, PartialEq, Eq)]
pub struct Centimetres(pub u8);

/// 000, 8.2: POWER UNITS, of 4 mA each.
#[derive(Clone, Copy, Debug, PartialEq, Eq)]
pub struct FourMilliamps(pub u8);

impl FourMilliamps {
    pub fn milliamps(self) -> u32 {
        4 * u32::from(self.0)
    }
}

/// 000, 8.11: IMIN and IMAX.
#[derive(Clone, Copy, Debug, PartialEq, Eq)]
pub struct Deciamps(pub u16);

/// 000, 8.10: VMAX and VMIN.
#[derive(Clone, Copy, Debug, PartialEq, Eq)]
pub struct Decivolts(pub u8);

/// 000, 8.12.1: SPEED, in units of 100 RPM.
#[derive(Clone, Copy, Debug, PartialEq, Eq)]
pub struct HundredRpm(pub u8);

/// 000, 8.6: MINIMUM RPM and MAXIMUM RPM.
#[derive(Clone, Copy, Debug, PartialEq, Eq)]
pub struct Rpm(pub u16);

/// 000, 8.4: MINIMUM TEMP and MAXIMUM TEMP.
#[derive(Clone, Copy, Debug, PartialEq, Eq)]
pub struct DegreesCentigrade(pub u8);
