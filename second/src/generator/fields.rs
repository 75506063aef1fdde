//! The fields of one device of each kind, with pins out of the pool.

use super::pool::Pool;
use crate::element::id;
use crate::pins::{ANALOGUE, FAN_LIST, I2C_BUS, REFERENCE, SPI_BUS, STATUS_LED};

impl Pool<'_> {
    /// The bytes from 8 on; `None` when pins are gone.
    pub(super) fn fields(&mut self, kind: u8, room: usize) -> Option<Vec<u8>> {
        match kind {
            id::DIGITAL_SENSOR => {
                let mut fields = self.attachment()?;
                fields.extend(self.random.bytes(10));
                Some(fields)
            }
            id::ANALOGUE_SENSOR => self.analogue_fields(),
            id::FAN | id::PUMP => self.fan_fields(),
            id::STATUS_LED => Some(self.led_fields(true)),
            id::WATER_LEVEL => {
                let pin = self.analogue_pin()?;
                Some([vec![pin], self.levels(3)].concat())
            }
            id::VOLTAGE => {
                let pin = self.analogue_pin()?;
                Some([vec![pin], self.random.bytes(2)].concat())
            }
            id::CURRENT => {
                let pin = self.analogue_pin()?;
                let mut fields = vec![pin, self.spare()];
                fields.extend(self.random.bytes(4));
                Some(fields)
            }
            id::CONTROLLER => self.controller_fields(room),
            id::TACHOMETER => {
                let mut fields = self.attachment()?;
                fields.push(self.spare());
                self.register_blocks(2, room, &mut fields);
                Some(fields)
            }
            id::EXTERNAL_RGB => {
                let mut fields = self.attachment()?;
                fields.push(self.random.between(1, 3) as u8);
                self.register_blocks(3, room, &mut fields);
                Some(fields)
            }
            _ => self.rgb_fields(),
        }
    }

    /// Bytes 8 to 10 of 01h, 09h, 0Ah and 0Dh.
    fn attachment(&mut self) -> Option<Vec<u8>> {
        let wanted = *self.random.pick(self.buses);
        let instead = if wanted == 3 { 0 } else { 3 };
        for bus in [wanted, instead] {
            let address = if bus == 3 {
                self.spi_address()
            } else {
                self.i2c_address()
            };
            if let Some(address) = address {
                let high = self.spare() & 0xF0;
                return Some(vec![high | bus, address, self.spare()]);
            }
        }
        None
    }

    fn i2c_address(&mut self) -> Option<u8> {
        if !self.take_shared(&I2C_BUS) {
            return None;
        }
        Some(self.random.byte() & 0xFE | self.spare() & 1)
    }

    fn spi_address(&mut self) -> Option<u8> {
        let before = self.pins;
        let select = self.take_select()?;
        if self.take_shared(&SPI_BUS) {
            return Some(select);
        }
        self.pins = before;
        None
    }

    fn analogue_pin(&mut self) -> Option<u8> {
        let before = self.pins;
        let pin = self.take_alone(&ANALOGUE)?;
        if self.take_shared(&REFERENCE) {
            return Some(pin);
        }
        self.pins = before;
        None
    }

    fn analogue_fields(&mut self) -> Option<Vec<u8>> {
        let pin = self.analogue_pin()?;
        let mut fields = vec![self.spare() & 0xF0 | 1, pin];
        fields.extend(self.levels(5));
        Some(fields)
    }

    /// So many values of the ten-bit scale.
    fn levels(&mut self, count: usize) -> Vec<u8> {
        let level = |_| *self.random.pick(&[0u16, 1, 511, 850, 1023]);
        (0..count).map(level).flat_map(u16::to_le_bytes).collect()
    }

    /// So many different free pins of the fan list, in its order.
    fn rising(&mut self, count: usize) -> Option<Vec<u8>> {
        let before = self.pins;
        let mut pins = Vec::new();
        for _ in 0..count {
            match self.take_alone(&FAN_LIST) {
                Some(pin) => pins.push(pin),
                None => {
                    self.pins = before;
                    return None;
                }
            }
        }
        pins.sort_unstable();
        Some(pins)
    }

    fn fan_fields(&mut self) -> Option<Vec<u8>> {
        let pins = if !self.sparing && self.random.chance(50) {
            self.rising(2).or_else(|| self.rising(1))?
        } else {
            self.rising(1)?
        };
        let (tachometer, pulses) = match pins.get(1) {
            Some(&pin) => (pin, *self.random.pick(&[0, 1, 2, 255])),
            None => (0xFF, 0),
        };
        let mut fields = vec![pins[0], tachometer, pulses];
        fields.extend(self.random.bytes(5));
        Some(fields)
    }

    fn rgb_fields(&mut self) -> Option<Vec<u8>> {
        self.rising(3)
    }

    /// Three lights; without pins to give, all unused.
    pub(super) fn led_fields(&mut self, pins: bool) -> Vec<u8> {
        let mut fields = Vec::new();
        for _ in 0..3 {
            let wanted = pins && self.random.chance(25);
            let pin = if wanted {
                self.take_alone(&STATUS_LED)
            } else {
                None
            };
            match pin {
                Some(pin) => {
                    let colour = self.random.between(1, 5) as u8;
                    let purpose = self.random.between(0, 4) as u8;
                    fields.extend([pin, colour << 4 | purpose]);
                }
                // Beside an unused pin both codes are carried as they stand.
                None => fields.extend([0xFF, self.spare()]),
            }
        }
        fields
    }

    fn controller_fields(&mut self, room: usize) -> Option<Vec<u8>> {
        let mut fields = self.attachment()?;
        let blocks = self.random.between(1, 6);
        for made in 0..blocks {
            let left = room.saturating_sub(8 + fields.len() + 2) / 4;
            if left == 0 && made > 0 {
                break;
            }
            let most = self.most_entries(left.clamp(1, 255));
            let entries = self.random.between(1, most);
            fields.extend([self.random.byte(), entries as u8]);
            fields.extend(self.random.bytes(4 * entries));
        }
        Some(fields)
    }

    /// Blocks are mostly short, at times as long as there is room.
    fn most_entries(&mut self, left: usize) -> usize {
        if self.random.chance(3) {
            left
        } else {
            left.min(4)
        }
    }

    /// So many blocks of ENTRIES and pairs, none of them perhaps.
    fn register_blocks(&mut self, count: usize, room: usize, fields: &mut Vec<u8>) {
        for later in (0..count).rev() {
            let left = room.saturating_sub(8 + fields.len() + 1 + later) / 4;
            let most = self.most_entries(left.min(255));
            let entries = self.random.between(0, most);
            fields.push(entries as u8);
            fields.extend(self.random.bytes(4 * entries));
        }
    }
}
