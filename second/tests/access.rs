//! Asking for the description, an element or its part.


use crate::common::{zoned, ON_320, ON_321};
use second::generator::{self, raw};
use second::pins::Pin;
use second::random::Random;
use second::record::{Address, Element};
use second::units::{Centimetres, Deciamps, DegreesCentigrade, FourMilliamps, Rpm};
use second::{description, element, part, Chip, Refusal};

#[test]
fn description_of_table_a() {
    let record = description(&raw::TABLE_A, ON_320).unwrap();
    assert_eq!(record.device_type, 2);
    assert_eq!(record.serial, 7);
    assert!(record.self_powered);
    assert_eq!(record.power, FourMilliamps(0));
    assert_eq!(record.hardware, [Pin::UNUSED; 3]);
    assert_eq!(description(&[], ON_320), Err(Refusal::at(1, 0)));
}

#[test]
fn past_the_last_is_17_at_0() {
    let table = zoned(&[raw::fan(1, 5, 6)]);
    assert!(element(&table, 1, ON_320).is_ok());
    for k in [2, 3, 96, usize::MAX] {
        assert_eq!(element(&table, k, ON_320), Err(Refusal::at(17, 0)));
        assert_eq!(part(&table, k, ON_320), &[] as &[u8]);
    }
    assert_eq!(element(&raw::TABLE_A, 0, ON_320), Err(Refusal::at(17, 0)));
}

#[test]
fn the_tables_own_refusal_goes_first() {
    let table = raw::table(&[raw::zone(1, 0), raw::zone(2, 9)]);
    for k in [0, 1, 7] {
        assert_eq!(element(&table, k, ON_320), Err(Refusal::at(14, 46)));
        assert!(part(&table, k, ON_320).is_empty());
    }
}

#[test]
fn controller_c_has_bus_address_20h() {
    let table = zoned(&[raw::CONTROLLER_C.to_vec()]);
    let Ok(Element::Controller(record)) = element(&table, 1, ON_320) else {
        panic!("no controller");
    };
    assert_eq!(record.attachment.address, Address::Bus(0x20));
    assert_eq!(record.attachment.bus_type, 0);
    assert_eq!(part(&table, 1, ON_320), &[5, 1, 7, 0, 12, 0]);
}

#[test]
fn fields_of_sensors() {
    let mut digital = raw::digital(1, 3, 0x14);
    for (at, byte) in digital.iter_mut().enumerate().skip(11) {
        *byte = at as u8;
    }
    digital[4..7].copy_from_slice(&[10, 20, 0xFF]);
    let table = zoned(&[digital, raw::analogue(1, 0x20), raw::current(1, 0x21)]);
    let Ok(Element::DigitalSensor(one)) = element(&table, 1, ON_320) else {
        panic!("no digital sensor");
    };
    assert_eq!(
        one.attachment.address,
        Address::Select(Pin::on(Chip::F320, 0x14))
    );
    assert_eq!(one.common.position.y, Centimetres(20));
    assert_eq!((one.lsb_register, one.msb_register), (0x0C0B, 0x0E0D));
    assert_eq!((one.minimum_value, one.maximum_value), (0x100F, 0x1312));
    assert_eq!(one.minimum_temp, DegreesCentigrade(17));
    assert_eq!(one.maximum_temp, DegreesCentigrade(20));
    let Ok(Element::AnalogueSensor(two)) = element(&table, 2, ON_320) else {
        panic!("no analogue sensor");
    };
    assert_eq!(two.calibration, [850, 700, 500, 320, 200]);
    let Ok(Element::Current(three)) = element(&table, 3, ON_320) else {
        panic!("no current");
    };
    assert_eq!(
        (three.at_minimum, three.at_maximum),
        (Deciamps(0), Deciamps(300))
    );
    assert!((1..=3).all(|k| part(&table, k, ON_320).is_empty()));
}

#[test]
fn fields_of_fans_and_lights() {
    let table = zoned(&[raw::FAN_F.to_vec(), raw::led(1, [0x14, 0xFF, 0xFF])]);
    let Ok(Element::Fan(fan)) = element(&table, 1, ON_320) else {
        panic!("no fan");
    };
    assert_eq!(
        (fan.pwm, fan.tachometer),
        (Pin::on(Chip::F320, 5), Pin::on(Chip::F320, 6))
    );
    assert_eq!((fan.minimum_rpm, fan.maximum_rpm), (Rpm(300), Rpm(1500)));
    assert_eq!((fan.pulses_per_revolution, fan.minimum_duty), (2, 64));
    let Ok(Element::StatusLed(led)) = element(&table, 2, ON_320) else {
        panic!("no LED");
    };
    assert_eq!((led.lights[0].colour, led.lights[0].purpose), (1, 1));
    assert_eq!(led.lights[2].pin, Pin::UNUSED);
}

/// The part is that part of the lent table itself: it starts where the layout says, uncopied.
#[test]
fn parts_are_lent() {
    let mut random = Random::new(5);
    for _ in 0..500 {
        let table = generator::valid(&mut random, ON_320);
        for (k, (place, bytes)) in second::access::walk(&table).enumerate() {
            let start = match bytes[0] {
                0x09 => 11,
                0x0A | 0x0D => 12,
                0x0B | 0x0C => 3,
                _ => bytes.len(),
            };
            let lent = part(&table, k, ON_320);
            assert_eq!(lent, &bytes[start..]);
            if !lent.is_empty() {
                assert_eq!(lent.as_ptr(), table[place + start..].as_ptr());
            }
        }
    }
}

/// Every pin of a record carries the chip that was named; an unused place carries none.
#[test]
fn pins_carry_the_chip_that_was_named() {
    let table = zoned(&[raw::led(1, [0x14, 0xFF, 0x30]), raw::digital(1, 3, 0x23)]);
    for (settings, chip) in [(ON_320, Chip::F320), (ON_321, Chip::F321)] {
        let Ok(Element::StatusLed(led)) = element(&table, 1, settings) else {
            panic!("no LED");
        };
        let chips = led.lights.map(|light| light.pin.chip());
        assert_eq!(chips, [Some(chip), None, Some(chip)]);
        assert_eq!(led.lights[1].pin, Pin::UNUSED);
        let Ok(Element::DigitalSensor(sensor)) = element(&table, 2, settings) else {
            panic!("no sensor");
        };
        let select = Address::Select(Pin::on(chip, 0x23));
        assert_eq!(sensor.attachment.address, select);
        let hardware = description(&table, settings).unwrap().hardware;
        assert_eq!(hardware, [Pin::UNUSED; 3]);
    }
    let mut strapped = raw::TABLE_A;
    strapped[9] = 0x30;
    let hardware = description(&strapped, ON_321).unwrap().hardware;
    assert_eq!(hardware[0], Pin::on(Chip::F321, 0x30));
}

/// The table's own refusal is that of the chip.
#[test]
fn a_table_for_the_320_only_has_no_elements_on_the_321() {
    let table = zoned(&[raw::text(1, b"xy"), raw::current(1, 0x24)]);
    assert!(element(&table, 1, ON_320).is_ok());
    assert_eq!(element(&table, 1, ON_321), Err(Refusal::at(10, 54)));
    assert_eq!(element(&table, 9, ON_321), Err(Refusal::at(10, 54)));
    assert_eq!(description(&table, ON_321), Err(Refusal::at(10, 54)));
    assert_eq!(part(&table, 1, ON_320).len(), 5);
    assert!(part(&table, 1, ON_321).is_empty());
}
