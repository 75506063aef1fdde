//! Rules 7 to 12 and 23 for one element of each kind, over its bytes.

use super::blocks::{register_blocks, speed_blocks};
use super::seen::{Claims, Numbers};
use super::sets::{
    Chosen, Pins, ANALOGUE, CHIP_SELECT, FAN_LIST, I2C_BUS, NO_PIN, REFERENCE, SPI_BUS, STATUS_LED,
};
use super::text::well_formed;
use crate::answer::{number, MOST_ZONES};
use crate::element::id;
use std::hint::select_unpredictable;

/// Takes one element, cut out of `rest` by its length; 0 when it breaks none of the pass's rules.
#[inline(always)]
pub fn take(
    identifier: u8,
    element: &[u8],
    rest: &[u8],
    chosen: Chosen,
    numbers: &mut Numbers,
    claims: &mut Claims,
) -> u8 {
    let pins = chosen.pins;
    match identifier {
        id::DIGITAL_SENSOR => digital_sensor(element, chosen, claims),
        id::ANALOGUE_SENSOR => analogue_sensor(element, pins, claims),
        id::FAN | id::PUMP => fan(element, pins, claims),
        id::STATUS_LED => status_led(element, pins, claims),
        id::WATER_LEVEL => water_level(element, pins, claims),
        id::VOLTAGE => voltage(element, pins, claims),
        id::CURRENT => current(element, pins, claims),
        id::CONTROLLER => controller(element, rest, chosen, claims),
        id::TACHOMETER => tachometer(element, chosen, claims),
        id::ZONE => zone(element, numbers),
        id::TEXT => text(element, numbers),
        id::EXTERNAL_RGB => external_rgb(element, chosen, claims),
        id::RGB_LED => rgb_led(element, pins, claims),
        _ => number::IDENTIFIER,
    }
}

/// Bus type (9, then 23), chip select (10) and the claims of a serial device: bytes 8 and 9.
///
/// Both kinds of bus are worked out and one is chosen, as the choice is hard to foretell.
#[inline(always)]
pub fn attachment(bus: u8, address: u8, chosen: Chosen, claims: &mut Claims) -> u8 {
    let bus = bus & 0x0F;
    if bus > 3 {
        return number::CODE;
    }
    if bus == chosen.retired {
        return number::RETIRED;
    }
    let spi = bus == 3;
    let select = chosen.pins.bit(address) & CHIP_SELECT;
    let select = select_unpredictable(spi, select, NO_PIN);
    if select == 0 {
        return number::PIN;
    }
    claims.shared |= select_unpredictable(spi, SPI_BUS, I2C_BUS);
    claims.select |= select;
    0
}

#[inline(always)]
pub fn digital_sensor(element: &[u8], chosen: Chosen, claims: &mut Claims) -> u8 {
    let Ok(e) = <&[u8; 21]>::try_from(element) else {
        return number::LAYOUT;
    };
    attachment(e[8], e[9], chosen, claims)
}

#[inline(always)]
pub fn analogue_sensor(element: &[u8], pins: Pins, claims: &mut Claims) -> u8 {
    let Ok(e) = <&[u8; 20]>::try_from(element) else {
        return number::LAYOUT;
    };
    // A value over 1023 has a bit in its high byte above the lowest two.
    let high = e[11] | e[13] | e[15] | e[17] | e[19];
    if e[8] & 0x0F != 1 || high > 3 {
        return number::CODE;
    }
    analogue_pin(e[9], pins, claims)
}

#[inline(always)]
fn analogue_pin(pin: u8, pins: Pins, claims: &mut Claims) -> u8 {
    let pin = pins.bit(pin) & ANALOGUE;
    if pin == 0 {
        return number::PIN;
    }
    claims.shared |= REFERENCE;
    claims.alone(pin);
    0
}

#[inline(always)]
pub fn fan(element: &[u8], pins: Pins, claims: &mut Claims) -> u8 {
    let Ok(e) = <&[u8; 16]>::try_from(element) else {
        return number::LAYOUT;
    };
    let used = e[9] != 0xFF;
    if !used & (e[10] != 0) {
        return number::CODE;
    }
    let pwm = pins.bit(e[8]) & FAN_LIST;
    let tachometer = pins.bit(e[9]) & FAN_LIST;
    // An absent pin is 0, so the order of the bits also finds a used pin off the list.
    if (pwm <= claims.last_of_fans) | (used & (tachometer <= pwm)) {
        return number::PIN;
    }
    claims.last_of_fans = pwm.max(tachometer);
    claims.alone(pwm | tachometer);
    0
}

#[inline(always)]
pub fn status_led(element: &[u8], pins: Pins, claims: &mut Claims) -> u8 {
    let Ok(e) = <&[u8; 14]>::try_from(element) else {
        return number::LAYOUT;
    };
    let codes = bad_light(e[8], e[9]) | bad_light(e[10], e[11]) | bad_light(e[12], e[13]);
    if codes {
        return number::CODE;
    }
    if bad_led_pin(e[8], pins) | bad_led_pin(e[10], pins) | bad_led_pin(e[12], pins) {
        return number::PIN;
    }
    // One by one: two lights of one element may meet on a pin.
    claims.alone(pins.bit(e[8]));
    claims.alone(pins.bit(e[10]));
    claims.alone(pins.bit(e[12]));
    0
}

/// Beside a used pin, colour 1 to 5 in bits 7-4 and purpose 0 to 4 in bits 3-0.
#[inline(always)]
fn bad_light(pin: u8, code: u8) -> bool {
    (pin != 0xFF) & ((code.wrapping_sub(0x10) >= 0x50) | (code & 0x0F > 4))
}

#[inline(always)]
fn bad_led_pin(pin: u8, pins: Pins) -> bool {
    (pin != 0xFF) & (pins.bit(pin) & STATUS_LED == 0)
}

#[inline(always)]
pub fn water_level(element: &[u8], pins: Pins, claims: &mut Claims) -> u8 {
    let Ok(e) = <&[u8; 15]>::try_from(element) else {
        return number::LAYOUT;
    };
    // As with the values of 02h.
    if e[10] | e[12] | e[14] > 3 {
        return number::CODE;
    }
    analogue_pin(e[8], pins, claims)
}

#[inline(always)]
pub fn voltage(element: &[u8], pins: Pins, claims: &mut Claims) -> u8 {
    let Ok(e) = <&[u8; 11]>::try_from(element) else {
        return number::LAYOUT;
    };
    analogue_pin(e[8], pins, claims)
}

#[inline(always)]
pub fn current(element: &[u8], pins: Pins, claims: &mut Claims) -> u8 {
    let Ok(e) = <&[u8; 14]>::try_from(element) else {
        return number::LAYOUT;
    };
    analogue_pin(e[8], pins, claims)
}

#[inline(always)]
pub fn controller(element: &[u8], rest: &[u8], chosen: Chosen, claims: &mut Claims) -> u8 {
    let Some(e) = element.first_chunk::<12>() else {
        return number::LAYOUT;
    };
    let refusal = speed_blocks(element, rest);
    if refusal != 0 {
        return refusal;
    }
    attachment(e[8], e[9], chosen, claims)
}

#[inline(always)]
pub fn tachometer(element: &[u8], chosen: Chosen, claims: &mut Claims) -> u8 {
    let Some((e, blocks)) = element.split_first_chunk::<12>() else {
        return number::LAYOUT;
    };
    if !register_blocks::<2>(blocks) {
        return number::LAYOUT;
    }
    attachment(e[8], e[9], chosen, claims)
}

#[inline(always)]
pub fn external_rgb(element: &[u8], chosen: Chosen, claims: &mut Claims) -> u8 {
    let Some((e, blocks)) = element.split_first_chunk::<12>() else {
        return number::LAYOUT;
    };
    if !register_blocks::<3>(blocks) {
        return number::LAYOUT;
    }
    light_chip(e[11], e[8], e[9], chosen, claims)
}

/// The chip identifier of an external RGB LED (9), and then what holds of every serial device.
#[inline(always)]
pub fn light_chip(identifier: u8, bus: u8, address: u8, chosen: Chosen, claims: &mut Claims) -> u8 {
    if !(1..=3).contains(&identifier) {
        return number::CODE;
    }
    attachment(bus, address, chosen, claims)
}

#[inline(always)]
pub fn rgb_led(element: &[u8], pins: Pins, claims: &mut Claims) -> u8 {
    let Ok(e) = <&[u8; 11]>::try_from(element) else {
        return number::LAYOUT;
    };
    let red = pins.bit(e[8]) & FAN_LIST;
    let green = pins.bit(e[9]) & FAN_LIST;
    let blue = pins.bit(e[10]) & FAN_LIST;
    if red <= claims.last_of_fans || green <= red || blue <= green {
        return number::PIN;
    }
    claims.last_of_fans = blue;
    claims.alone(red | green | blue);
    0
}

#[inline(always)]
pub fn zone(element: &[u8], numbers: &mut Numbers) -> u8 {
    let Ok(e) = <&[u8; 30]>::try_from(element) else {
        return number::LAYOUT;
    };
    if numbers.zone_count == MOST_ZONES {
        return number::TOO_MANY;
    }
    numbers.zone_count += 1;
    if numbers.zones.add_again(e[3]) {
        return number::TWICE;
    }
    numbers.strings_named.add(e[4]);
    0
}

#[inline(always)]
pub fn text(element: &[u8], numbers: &mut Numbers) -> u8 {
    let Some((e, text)) = element.split_first_chunk::<6>() else {
        return number::LAYOUT;
    };
    numbered(e[3], well_formed(text), numbers)
}

/// 9 and 12 of a string of this number, whose text is well-formed or not.
#[inline(always)]
pub fn numbered(number: u8, well_formed: bool, numbers: &mut Numbers) -> u8 {
    if (number == 0) | !well_formed {
        number::CODE
    } else if numbers.strings.add_again(number) {
        number::TWICE
    } else {
        0
    }
}
