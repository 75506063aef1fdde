//! The fan list runs through the whole table. Zone 1 stands at 16, so that the first other element stands at
//! 46; a fan and a pump have 16 bytes each, an RGB LED 11.


use crate::common::{gives, gives_by, with, zoned};
use second::element::read_element;
use second::generator::raw::{self, Parts};
use second::generator::{mixed, valid};
use second::pins::FAN_LIST;
use second::random::Random;
use second::{append, Chip, Rules, Settings, Verdict};

/// The places in the list of all pins that count, in element order.
fn places(elements: &[Vec<u8>]) -> Vec<usize> {
    let pins = elements.iter().flat_map(|e| match e[0] {
        0x03 | 0x06 => e[8..10].to_vec(),
        0x0E => e[8..11].to_vec(),
        _ => Vec::new(),
    });
    pins.filter_map(|pin| FAN_LIST.iter().position(|&listed| listed == pin))
        .collect()
}

fn rises(places: &[usize]) -> bool {
    places.is_sorted_by(|one, other| one < other)
}

/// Good alone, each of them.
fn counted() -> Vec<Vec<u8>> {
    let mut all = Vec::new();
    for one in FAN_LIST {
        all.extend([raw::fan(1, one, 0xFF), raw::pump(1, one, 0xFF)]);
        for two in FAN_LIST.into_iter().filter(|&two| two > one) {
            all.extend([raw::fan(1, one, two), raw::pump(1, one, two)]);
            for three in FAN_LIST.into_iter().filter(|&three| three > two) {
                all.push(raw::rgb(1, one, two, three));
            }
        }
    }
    all
}

/// Every two that count, in both orders: good exactly when the pins rise, else 10 at the second.
#[test]
fn every_two_that_count() {
    let all = counted();
    assert_eq!(all.len(), 2 * 5 + 2 * 10 + 10);
    for first in &all {
        gives(&zoned(std::slice::from_ref(first)), 0, 2);
        for second in &all {
            let two = [first.clone(), second.clone()];
            match rises(&places(&two)) {
                true => gives(&zoned(&two), 0, 3),
                false => gives(&zoned(&two), 10, 46 + first.len()),
            }
        }
    }
}

#[test]
fn the_papers_rows() {
    let fan = || raw::FAN_F.to_vec();
    gives(&raw::table(&[fan(), fan()]), 10, 32);
    gives(&raw::table(&[fan(), fan(), raw::zone(1, 0)]), 10, 32);
    gives(&raw::table(&[fan(), raw::zone(1, 0)]), 0, 2);
}

/// However far back: zones, strings and bus devices between do not matter, nor does a fan without tachometer.
#[test]
fn whatever_stands_between() {
    let between: [Vec<u8>; 6] = [
        raw::zone(2, 0),
        raw::text(9, &[]),
        raw::digital(1, 0, 0x40),
        raw::external(1, 3, 0x14, [0; 3]),
        raw::led(1, [0xFF; 3]),
        raw::controller(1, 3, 0x14, &[1]),
    ];
    let [early, late] = [raw::fan(1, 0x06, 0xFF), raw::pump(1, 0x12, 0xFF)];
    for element in between {
        let place = 46 + 16 + element.len();
        gives(
            &zoned(&[early.clone(), element.clone(), late.clone()]),
            0,
            4,
        );
        gives(
            &zoned(&[late.clone(), element.clone(), early.clone()]),
            10,
            place,
        );
        gives(&zoned(&[late.clone(), element, late.clone()]), 10, place);
    }
    // The last one used is the tachometer, not the PWM pin.
    let wide = || raw::fan(1, 0x05, 0x12);
    gives(&zoned(&[wide(), raw::pump(1, 0x11, 0xFF)]), 10, 62);
    gives(&zoned(&[wide(), raw::pump(1, 0x13, 0xFF)]), 0, 3);
    // Of an RGB LED it is blue.
    let colours = || raw::rgb(1, 0x05, 0x06, 0x12);
    gives(&zoned(&[colours(), raw::fan(1, 0x11, 0xFF)]), 10, 57);
    gives(&zoned(&[colours(), raw::fan(1, 0x13, 0xFF)]), 0, 3);
    gives(
        &zoned(&[raw::fan(1, 0x05, 0xFF), raw::rgb(1, 0x06, 0x12, 0x13)]),
        0,
        3,
    );
    gives(
        &zoned(&[raw::fan(1, 0x06, 0xFF), raw::rgb(1, 0x05, 0x12, 0x13)]),
        10,
        62,
    );
    let three = |pins: [u8; 3]| zoned(&pins.map(|pin| raw::fan(1, pin, 0xFF)));
    gives(&three([0x05, 0x11, 0x13]), 0, 4);
    gives(&three([0x05, 0x13, 0x11]), 10, 78);
    gives(&three([0x11, 0x05, 0x13]), 10, 62);
}

#[test]
fn chip_selects_and_hardware_pins_are_not_counted() {
    for select in [
        raw::digital(1, 3, 0x13),
        raw::controller(1, 3, 0x13, &[1]),
        raw::tachometer(1, 3, 0x13, 0, 0),
        raw::external(1, 3, 0x13, [0; 3]),
    ] {
        let fan = raw::fan(1, 0x05, 0x06);
        gives(&zoned(&[select.clone(), fan.clone()]), 0, 3);
        gives(&zoned(&[fan, select.clone()]), 0, 3);
        // A select between two fans is not the last one used.
        let sequence = [raw::fan(1, 0x05, 0xFF), select, raw::fan(1, 0x06, 0xFF)];
        gives(&zoned(&sequence), 0, 4);
    }
    let mut parts = Parts::of(&[raw::zone(1, 0), raw::fan(1, 0x05, 0x06)]);
    parts.description[9..12].copy_from_slice(&[0x13, 0x12, 0x11]);
    gives(&parts.bytes(), 0, 2);
    // A select on a fan's own pin is 15 as before, in either order.
    let select = || raw::digital(1, 3, 0x11);
    gives(&zoned(&[select(), raw::fan(1, 0x11, 0xFF)]), 15, 67);
    gives(&zoned(&[raw::fan(1, 0x11, 0xFF), select()]), 15, 62);
}

/// 10 of the pass: before 13, 14 and 15 of whatever element, after what stands before it.
#[test]
fn where_it_stands() {
    let [first, early] = [raw::fan(1, 0x11, 0x12), raw::pump(1, 0x05, 0xFF)];
    gives(&raw::table(&[first.clone(), early.clone()]), 10, 32);
    let no_zone = with(&[(7, 9)], first.clone());
    gives(&zoned(&[no_zone, early.clone()]), 10, 62);
    let no_string = with(&[(3, 9)], first.clone());
    gives(&zoned(&[no_string, early.clone()]), 10, 62);
    let light = || raw::led(1, [0x14, 0xFF, 0xFF]);
    gives(
        &zoned(&[light(), light(), first.clone(), early.clone()]),
        10,
        90,
    );
    gives(
        &zoned(&[first.clone(), early.clone(), raw::zone(1, 0)]),
        10,
        62,
    );
    gives(
        &zoned(&[first.clone(), raw::zone(1, 0), early.clone()]),
        12,
        62,
    );
    // 8, 9 and its own pins come first, the last with the same number.
    let longer = raw::element(0x06, &[&early[3..], &[0]].concat());
    gives(&zoned(&[first.clone(), longer]), 8, 62);
    let pulses = with(&[(10, 1)], early.clone());
    gives(&zoned(&[first.clone(), pulses]), 9, 62);
    // The 97th is 11.
    let mut elements = vec![raw::zone(1, 0), first.clone()];
    elements.extend((1..=94).map(|number| raw::text(number, &[])));
    gives(&raw::table(&elements), 0, 96);
    elements.push(early.clone());
    gives(&raw::table(&elements), 11, 16 + 30 + 16 + 94 * 6);
    elements.remove(2);
    gives(&raw::table(&elements), 10, 16 + 30 + 16 + 93 * 6);
    let retired = zoned(&[first.clone(), raw::digital(1, 2, 0x40), early.clone()]);
    gives_by(Rules::Ordinary, &retired, 23, 62);
    gives_by(Rules::Archive, &retired, 10, 83);
}

/// A second F is appended, and the reader then says 10.
#[test]
fn append_does_not_look() {
    let (fan, part) = read_element(&raw::FAN_F, Chip::F320).unwrap();
    let mut buffer = raw::TABLE_A.to_vec();
    buffer.resize(48, 0);
    assert_eq!(append(&mut buffer, Chip::F320, &fan, part), Ok(32));
    assert_eq!(append(&mut buffer, Chip::F320, &fan, part), Ok(48));
    gives(&buffer, 10, 32);
}

/// In an accepted table the pins of all elements rise strictly; and generated tables have them in every place.
#[test]
fn accepted_tables_rise() {
    let mut random = Random::new(90);
    let mut counts = [0; 6];
    for at in 0..20_000 {
        let settings = Settings::ALL[at % 4];
        let table = match at % 10 {
            0 => mixed(&mut random, settings),
            _ => valid(&mut random, settings),
        };
        assert!(matches!(
            second::check(&table, settings),
            Verdict::Accepted(_)
        ));
        let elements: Vec<Vec<u8>> = second::access::walk(&table)
            .map(|(_, bytes)| bytes.to_vec())
            .collect();
        let places = places(&elements);
        assert!(rises(&places), "{places:?}");
        let using = elements
            .iter()
            .filter(|e| matches!(e[0], 0x03 | 0x06 | 0x0E));
        counts[using.count()] += 1;
    }
    assert!(counts.iter().all(|&count| count > 20), "{counts:?}");
}
