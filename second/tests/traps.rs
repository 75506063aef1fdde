//! The open points and traps of the rulings, each by name. Zone 1 stands at 16 where it is
//! declared, so that the first other element stands at 46.


use crate::common::{changed, gives, gives_on, with, zoned, ON_320};
use second::generator::raw::{self, Parts, TABLE_A};
use second::pins::ONLY_320;
use second::Chip;

#[test]
fn rule_1_before_2_before_3() {
    gives(&[0x10, 99, 0], 1, 0);
    gives(&changed(&[(0, 0x10), (1, 99), (3, 0)]), 2, 0);
    gives(&changed(&[(1, 99), (3, 0), (8, 126)]), 3, 0);
    gives(&changed(&[(3, 0), (8, 126), (9, 0x31)]), 4, 0);
    gives(&changed(&[(8, 126), (9, 0x31)]), 5, 0);
}

#[test]
fn lengths_are_not_cut_to_16_bits() {
    let mut table = TABLE_A.to_vec();
    table.resize(65_552, 0);
    gives(&table, 3, 0);
    let table = raw::table(&[raw::text(1, &vec![0; 4096 - 22])]);
    gives(&table, 0, 1);
    let table = raw::table(&[raw::text(1, &vec![0; 4097 - 22])]);
    assert_eq!(table.len(), 4097);
    gives(&table, 3, 0);
}

#[test]
fn revision_10h_is_2_and_a_reserved_device_type_is_4() {
    gives(&changed(&[(0, 0x10)]), 2, 0);
    for device_type in [0, 4, 255] {
        gives(&changed(&[(3, device_type)]), 4, 0);
    }
    for device_type in 1..=3 {
        gives(&changed(&[(3, device_type)]), 0, 0);
    }
}

#[test]
fn self_powered_with_any_power_units_is_good() {
    for power in 0..=255u8 {
        let number = if (126..=127).contains(&power) { 5 } else { 0 };
        gives(&changed(&[(8, power)]), number, 0);
        let mut out = [0; 16];
        if number == 0 {
            second::rewrite(&changed(&[(8, power)]), Chip::F320, &mut out).unwrap();
            assert_eq!(out[8], power);
        }
    }
}

#[test]
fn no_bytes_left_is_the_end_one_or_two_are_6() {
    gives(&raw::table(&[raw::text(1, &[])]), 0, 1);
    gives(&raw::table(&[raw::text(1, &[]), vec![3]]), 6, 22);
    gives(&raw::table(&[raw::text(1, &[]), vec![3, 3]]), 6, 22);
    gives(&raw::table(&[vec![0xFF, 2, 0]]), 6, 16);
    gives(&raw::table(&[vec![0xFF, 4, 0]]), 6, 16);
}

#[test]
fn element_length_3_is_not_6() {
    gives(&raw::table(&[vec![0xFF, 3, 0]]), 7, 16);
    gives(&raw::table(&[vec![0x03, 3, 0]]), 8, 16);
}

#[test]
fn the_97th_is_met_after_6_before_7() {
    let strings: Vec<Vec<u8>> = (1..=96).map(|number| raw::text(number, &[])).collect();
    let place = 16 + 96 * 6;
    gives(&raw::table(&strings), 0, 96);
    for (last, number) in [
        (vec![0x77, 3, 0], 11),
        (vec![0x77, 2, 0], 6),
        (vec![0x77, 4, 0], 6),
        (vec![0x77], 6),
        (raw::text(1, &[]), 11),
        (raw::text(0, &[]), 11),
    ] {
        let mut elements = strings.clone();
        elements.push(last);
        gives(&raw::table(&elements), number, place);
    }
}

#[test]
fn identifiers_of_string_and_zone() {
    for identifier in 0..=255u8 {
        let number = match identifier {
            0x01..=0x0E => 8,
            _ => 7,
        };
        gives(&raw::table(&[raw::element(identifier, &[])]), number, 16);
    }
}

#[test]
fn a_zone_is_30_bytes_and_a_string_6_or_more() {
    for length in 3..40 {
        let zone = raw::element(0x0B, &vec![0; length - 3]);
        if length == 30 {
            gives(&raw::table(&[zone]), 0, 1);
        } else {
            gives(&raw::table(&[zone]), 8, 16);
        }
        let string = raw::element(0x0C, &vec![5; length - 3]);
        match length {
            ..6 => gives(&raw::table(&[string]), 8, 16),
            _ if length % 2 == 1 => gives(&raw::table(&[string]), 9, 16),
            _ => gives(&raw::table(&[string]), 0, 1),
        }
    }
    gives(&raw::table(&[raw::text(5, &[0x41; 68])]), 0, 1);
}

#[test]
fn a_zone_has_a_string_index_and_a_string_has_none() {
    gives(&raw::table(&[raw::zone(1, 7)]), 14, 16);
    gives(&raw::table(&[raw::zone(1, 7), raw::text(7, &[])]), 0, 2);
    gives(&raw::table(&[raw::text(7, &[9, 9, 9, 9])]), 0, 1);
}

#[test]
fn a_13th_zone_that_repeats_a_number_is_11() {
    let mut zones: Vec<Vec<u8>> = (0..12).map(|number| raw::zone(number, 0)).collect();
    gives(&raw::table(&zones), 0, 12);
    zones.push(raw::zone(3, 0));
    gives(&raw::table(&zones), 11, 16 + 12 * 30);
    zones[12] = raw::zone(99, 0);
    gives(&raw::table(&zones), 11, 16 + 12 * 30);
}

#[test]
fn one_string_number_in_two_locales_is_12() {
    let other = with(&[(4, 0x07)], raw::text(7, b"zz"));
    gives(&raw::table(&[raw::text(7, &[]), other]), 12, 22);
    gives(&raw::table(&[raw::text(7, &[]), raw::zone(7, 0)]), 0, 2);
    gives(&raw::table(&[raw::zone(7, 0), raw::zone(7, 0)]), 12, 46);
}

#[test]
fn zone_0_is_an_ordinary_zone() {
    let fan = raw::fan(0, 0x05, 0xFF);
    gives(&raw::table(&[fan.clone(), raw::zone(1, 0)]), 13, 16);
    gives(&raw::table(&[fan, raw::zone(0, 0)]), 0, 2);
    gives(&raw::table(&[raw::zone(0, 0), raw::zone(0, 0)]), 12, 46);
}

#[test]
fn every_kind_with_a_zone_must_find_it_earlier_or_later() {
    for element in [
        raw::digital(1, 0, 0x90),
        raw::analogue(1, 0x20),
        raw::fan(1, 0x05, 0x06),
        raw::led(1, [0xFF; 3]),
        raw::current(1, 0x21),
        raw::controller(1, 0, 0x40, &[1]),
        raw::tachometer(1, 0, 0x40, 0, 0),
        raw::rgb(1, 0x05, 0x06, 0x11),
        raw::water(1, 0x14),
        raw::pump(1, 0x05, 0x06),
        raw::voltage(1, 0x14),
        raw::external(1, 0, 0x40, [0; 3]),
    ] {
        gives(&raw::table(std::slice::from_ref(&element)), 13, 16);
        gives(&raw::table(&[element.clone(), raw::text(1, &[])]), 13, 16);
        gives(&raw::table(&[element.clone(), raw::zone(1, 0)]), 0, 2);
        gives(&raw::table(&[raw::zone(1, 0), element.clone()]), 0, 2);
        let named = with(&[(3, 200)], element);
        gives(&zoned(std::slice::from_ref(&named)), 14, 46);
        gives(&zoned(&[named.clone(), raw::text(200, &[])]), 0, 3);
        gives(&zoned(&[raw::text(200, &[]), named]), 0, 3);
    }
}

#[test]
fn all_of_13_before_any_of_14_before_any_of_15() {
    let clash = [
        raw::led(1, [0x14, 0xFF, 0xFF]),
        raw::led(1, [0x14, 0xFF, 0xFF]),
    ];
    let no_string = with(&[(3, 9)], raw::led(1, [0xFF; 3]));
    let no_zone = raw::led(2, [0xFF; 3]);
    let mut elements = clash.to_vec();
    gives(&zoned(&elements), 15, 60);
    elements.push(no_string);
    gives(&zoned(&elements), 14, 74);
    elements.push(no_zone);
    gives(&zoned(&elements), 13, 88);
}

#[test]
fn rule_14_looks_at_the_description_first() {
    let mut parts = Parts::of(&[raw::zone(1, 9)]);
    parts.description[4] = 9;
    gives(&parts.bytes(), 14, 0);
    parts.elements.push(raw::text(9, &[]));
    gives(&parts.bytes(), 0, 2);
}

#[test]
fn other_shalls_of_the_specification_are_no_rules() {
    let orphan = raw::text(50, b"nobody names me.");
    let lonely_tachometer = raw::tachometer(1, 0, 0x40, 0, 0);
    let automatic = with(&[(5, 0xFF)], raw::zone(2, 0));
    let msb = with(&[(13, 0xFF)], raw::digital(1, 0, 0x40));
    let slow = with(&[(11, 0xFF), (12, 0xFF)], raw::fan(1, 0x12, 0x13));
    let elements = [orphan, lonely_tachometer, automatic, msb, slow];
    gives(&zoned(&elements), 0, 6);
}

#[test]
fn blocks_8_before_9() {
    gives(&zoned(&[raw::controller(1, 0, 0x40, &[0; 7])]), 8, 46);
    gives(&zoned(&[raw::controller(1, 0, 0x40, &[0; 6])]), 9, 46);
    gives(&zoned(&[raw::controller(1, 0, 0x40, &[1; 7])]), 8, 46);
    gives(&zoned(&[raw::controller(1, 0, 0x40, &[1; 6])]), 0, 2);
    gives(&zoned(&[raw::controller(1, 0, 0x40, &[1])]), 0, 2);
    gives(&zoned(&[raw::controller(1, 0, 0x40, &[])]), 8, 46);
    gives(&zoned(&[raw::controller(1, 15, 0x40, &[])]), 8, 46);
}

#[test]
fn a_controller_shorter_than_13_is_8() {
    let whole = raw::controller(1, 0, 0x40, &[0]);
    assert_eq!(whole.len(), 13);
    gives(&zoned(std::slice::from_ref(&whole)), 9, 46);
    for length in 3..13 {
        let cut = raw::element(0x09, &whole[3..length]);
        gives(&zoned(&[cut]), 8, 46);
    }
}

#[test]
fn the_part_of_a_tachometer_starts_at_12() {
    let whole = raw::tachometer(1, 0, 0x40, 0, 0);
    assert_eq!(whole.len(), 14);
    gives(&zoned(&[with(&[(11, 0xFF)], whole.clone())]), 0, 2);
    gives(&zoned(&[with(&[(12, 1)], whole.clone())]), 8, 46);
    let table = zoned(&[with(&[(11, 0xFF)], raw::tachometer(1, 0, 0x40, 1, 0))]);
    assert_eq!(second::part(&table, 1, ON_320), &[1, 7, 0, 0, 0, 0]);
    let table = zoned(&[raw::controller(1, 0, 0x40, &[1])]);
    assert_eq!(second::part(&table, 1, ON_320), &[5, 1, 7, 0, 0, 0]);
}

/// An element, and its reserved places with the bits to set there.
type Reserved<'a> = (Vec<u8>, &'a [(usize, u8)]);

/// Each reserved place set and found zero after rewriting; all other bytes stay.
#[test]
fn reserved_places_complete() {
    let good: [Reserved; 7] = [
        (raw::digital(1, 0, 0x90), &[(8, 0xF0), (9, 1), (10, 0xFF)]),
        (raw::digital(1, 3, 0x15), &[(8, 0xF0), (10, 0xFF)]),
        (raw::analogue(1, 0x20), &[(8, 0xF0)]),
        (raw::current(1, 0x21), &[(9, 0xFF)]),
        (
            raw::controller(1, 1, 0x40, &[1]),
            &[(8, 0xF0), (9, 1), (10, 0xFF)],
        ),
        (
            raw::tachometer(1, 1, 0x40, 0, 0),
            &[(8, 0xF0), (9, 1), (10, 0xFF), (11, 0xFF)],
        ),
        (raw::zone(2, 0), &[]),
    ];
    let clean: Vec<Vec<u8>> = good.iter().map(|(element, _)| element.clone()).collect();
    let mut dirty = clean.clone();
    for (element, (_, reserved)) in dirty.iter_mut().zip(&good) {
        for &(at, bits) in *reserved {
            element[at] |= bits;
        }
    }
    let mut table = zoned(&dirty);
    table[12..16].fill(0xFF);
    gives(&table, 0, 8);
    let mut out = vec![0xA5; table.len()];
    assert_eq!(
        second::rewrite(&table, Chip::F320, &mut out),
        Ok(table.len())
    );
    assert_eq!(out, zoned(&clean));
}

#[test]
fn zone_byte_5_is_content() {
    let zone = with(&[(5, 0xFF)], raw::zone(1, 0));
    let table = raw::table(std::slice::from_ref(&zone));
    let mut out = vec![0; table.len()];
    second::rewrite(&table, Chip::F320, &mut out).unwrap();
    assert_eq!(out, table);
    assert_eq!(second::part(&table, 0, ON_320), &zone[3..]);
}

#[test]
fn a_reserved_bus_type_is_9_and_nobody_looks_at_the_address() {
    for bus in 4..=15 {
        for address in [0x00, 0x14, 0x31, 0xFF] {
            gives(&zoned(&[raw::digital(1, bus, address)]), 9, 46);
            gives(&zoned(&[raw::controller(1, bus, address, &[1])]), 9, 46);
            gives(&zoned(&[raw::tachometer(1, bus, address, 0, 0)]), 9, 46);
        }
    }
    // Under bus types 0 and 1 the byte is no pin; `retired` has type 2.
    for bus in 0..=1 {
        gives(&zoned(&[raw::digital(1, bus, 0xFF)]), 0, 2);
    }
    gives(&zoned(&[raw::digital(1, 3, 0xFF)]), 10, 46);
}

#[test]
fn colour_and_purpose_beside_used_and_unused_pins() {
    for code in 0..=255u8 {
        let dark = with(&[(9, code)], raw::led(1, [0xFF; 3]));
        let table = zoned(&[dark]);
        gives(&table, 0, 2);
        let mut out = vec![0; table.len()];
        second::rewrite(&table, Chip::F320, &mut out).unwrap();
        assert_eq!(out, table);
        let good = (1..=5).contains(&(code >> 4)) && code & 15 <= 4;
        let lit = with(&[(9, code)], raw::led(1, [0x14, 0xFF, 0xFF]));
        if good {
            gives(&zoned(&[lit]), 0, 2);
        } else {
            gives(&zoned(&[lit]), 9, 46);
        }
    }
}

#[test]
fn eeh_is_a_used_pin_that_does_not_exist() {
    for place in 0..3 {
        let mut pins = [0x14, 0x15, 0x16];
        pins[place] = 0xEE;
        gives(&zoned(&[raw::led(1, pins)]), 10, 46);
        let reserved = with(&[(9 + 2 * place, 0)], raw::led(1, pins));
        gives(&zoned(&[reserved]), 9, 46);
    }
}

#[test]
fn pulses_and_tachometers() {
    let fan = |tachometer, pulses| with(&[(10, pulses)], raw::fan(1, 0x05, tachometer));
    gives(&zoned(&[fan(0x06, 0)]), 0, 2);
    gives(&zoned(&[fan(0xFF, 0)]), 0, 2);
    gives(&zoned(&[fan(0xFF, 1)]), 9, 46);
    gives(&zoned(&[fan(0xF0, 0)]), 10, 46);
    gives(&zoned(&[fan(0x0F, 0)]), 10, 46);
}

#[test]
fn thirteen_pins_and_not_the_bytes_between() {
    let mut good = [0; 2];
    for (chip, good) in Chip::BOTH.into_iter().zip(&mut good) {
        for pin in 0x14..=0x30 {
            let table = zoned(&[raw::analogue(1, pin)]);
            let lacking = chip == Chip::F321 && ONLY_320.contains(&pin);
            if matches!(pin, 0x14..=0x17 | 0x20..=0x27 | 0x30) && !lacking {
                *good += 1;
                gives_on(chip, &table, 0, 2);
            } else {
                gives_on(chip, &table, 10, 46);
            }
        }
    }
    assert_eq!(good, [13, 9]);
}

#[test]
fn where_lights_and_selects_may_stand() {
    for pin in [0x05, 0x06, 0x11, 0x12, 0x13] {
        gives(&zoned(&[raw::led(1, [pin, 0xFF, 0xFF])]), 10, 46);
        gives(&zoned(&[raw::digital(1, 3, pin)]), 0, 2);
    }
    gives(&zoned(&[raw::led(1, [0x10, 0xFF, 0xFF])]), 10, 46);
    gives(&zoned(&[raw::led(1, [0x07, 0xFF, 0xFF])]), 10, 46);
    for pin in 0..=4 {
        gives(&zoned(&[raw::led(1, [pin, 0xFF, 0xFF])]), 0, 2);
    }
}

#[test]
fn a_light_on_a_bus_pin_clashes_at_the_later_of_the_two() {
    let light = |pin| raw::led(1, [0xFF, 0xFF, pin]);
    gives(&zoned(&[light(0x03), raw::digital(1, 0, 0x90)]), 15, 60);
    gives(&zoned(&[raw::digital(1, 0, 0x90), light(0x04)]), 15, 67);
    gives(&zoned(&[light(0x00), raw::digital(1, 0, 0x90)]), 0, 3);
    gives(&zoned(&[light(0x02), raw::digital(1, 3, 0x14)]), 15, 60);
    gives(&zoned(&[raw::digital(1, 3, 0x14), light(0x02)]), 15, 67);
}

#[test]
fn pwm_and_tachometer_on_one_pin_is_10() {
    gives(&zoned(&[raw::fan(1, 0x06, 0x06)]), 10, 46);
    gives(&zoned(&[raw::rgb(1, 0x05, 0x05, 0x06)]), 10, 46);
    gives(&zoned(&[raw::rgb(1, 0x05, 0x11, 0x13)]), 0, 2);
}

#[test]
fn two_lights_of_one_element_on_one_pin_is_15() {
    gives(&zoned(&[raw::led(1, [0x14, 0xFF, 0x14])]), 15, 46);
}

#[test]
fn hardware_pins_clash_at_0_after_13_and_14() {
    gives(&changed(&[(9, 0x10)]), 15, 0);
    gives(&changed(&[(9, 0x20), (11, 0x20)]), 15, 0);
    gives(&changed(&[(9, 0x10), (4, 1)]), 14, 0);
    let mut parts = Parts::of(&[raw::fan(1, 0x05, 0xFF)]);
    parts.description[9] = 0x10;
    gives(&parts.bytes(), 13, 16);
    parts.elements.push(raw::zone(1, 0));
    gives(&parts.bytes(), 15, 0);
    parts.description[9] = 0x05;
    gives(&parts.bytes(), 15, 16);
}

#[test]
fn a_chip_select_and_any_other_use_clash_in_either_order() {
    let select = raw::tachometer(1, 3, 0x20, 0, 0);
    let light = raw::led(1, [0x20, 0xFF, 0xFF]);
    gives(&zoned(&[select.clone(), select.clone()]), 0, 3);
    for other in [light, raw::analogue(1, 0x20), raw::current(1, 0x20)] {
        gives(&zoned(&[select.clone(), other.clone()]), 15, 60);
        let later = 46 + other.len();
        gives(&zoned(&[other, select.clone()]), 15, later);
    }
    let on_fan_list = raw::digital(1, 3, 0x05);
    gives(
        &zoned(&[on_fan_list.clone(), raw::fan(1, 0x05, 0xFF)]),
        15,
        67,
    );
    gives(&zoned(&[raw::fan(1, 0x05, 0xFF), on_fan_list]), 15, 62);
}

#[test]
fn of_several_clashes_the_first_claim_that_meets_an_earlier_one() {
    let light = |pin| raw::led(1, [pin, 0xFF, 0xFF]);
    let abba = [light(0x14), light(0x15), light(0x15), light(0x14)];
    gives(&zoned(&abba), 15, 46 + 2 * 14);
}

#[test]
fn positions_and_ranges_are_no_rules() {
    for position in [[0, 0xFF, 0], [0xFF, 0xFF, 0], [1, 2, 3]] {
        let mut fan = raw::fan(1, 0x05, 0x06);
        fan[4..7].copy_from_slice(&position);
        gives(&zoned(&[fan]), 0, 2);
    }
}
