//! The listing, line by line.


use crate::common::{changed, with, zoned, ON_320, ON_321};
use second::generator::raw::{self, Parts};
use second::generator::{any, mixed, targeted, valid};
use second::listing::LISTING;
use second::random::Random;
use second::{plain, Settings};

fn text(table: &[u8]) -> String {
    String::from_utf8(second::listing(table, ON_320)).unwrap()
}

#[test]
fn the_description_line() {
    let table = changed(&[
        (3, 3),
        (5, 1),
        (6, 2),
        (7, 3),
        (8, 125),
        (9, 0x30),
        (11, 0x07),
    ]);
    assert_eq!(
        text(&table),
        "T\t0.90\t16\t3\t0\t197121\t500\tP3.0\t-\tP0.7\n"
    );
    let table = changed(&[(8, 0)]);
    assert_eq!(text(&table), "T\t0.90\t16\t2\t0\t7\t0\t-\t-\t-\n");
    let table = changed(&[(8, 0xFF)]);
    assert_eq!(text(&table), "T\t0.90\t16\t2\t0\t7\tself\t-\t-\t-\n");
}

#[test]
fn the_refusal_line() {
    assert_eq!(text(&[]), "R\t1\t0\n");
    assert_eq!(text(&raw::table(&[raw::fan(1, 5, 6)])), "R\t13\t16\n");
}

#[test]
fn one_line_for_each_kind() {
    let table = zoned(&[
        raw::digital(1, 0, 0x90),
        raw::digital(1, 3, 0x14),
        raw::analogue(1, 0x20),
        raw::fan(1, 0x05, 0xFF),
        raw::led(1, [0xFF, 0x30, 0x27]),
        raw::led(1, [0xFF; 3]),
        raw::current(1, 0x21),
        raw::controller(1, 3, 0x14, &[1]),
        raw::tachometer(1, 1, 0x40, 0, 0),
        raw::rgb(1, 0x06, 0x11, 0x13),
        raw::text(9, b"xy"),
    ]);
    let wanted = "T\t0.90\t216\t2\t0\t7\tself\t-\t-\t-\n\
        E\t16\t0B\t1\t-\n\
        E\t46\t01\t1\t-\n\
        E\t67\t01\t1\tP1.4\n\
        E\t88\t02\t1\tP2.0\n\
        E\t108\t03\t1\tP0.5\n\
        E\t124\t04\t1\tP3.0,P2.7\n\
        E\t138\t04\t1\t-\n\
        E\t152\t08\t1\tP2.1\n\
        E\t166\t09\t1\tP1.4\n\
        E\t183\t0A\t1\t-\n\
        E\t197\t0E\t1\tP0.6,P1.1,P1.3\n\
        E\t208\t0C\t-\t-\n";
    assert_eq!(text(&table), wanted);
}

#[test]
fn zone_numbers_and_strings() {
    let mut parts = Parts::of(&[
        raw::zone(0, 255),
        raw::zone(255, 0),
        with(&[(3, 255)], raw::led(0, [0xFF; 3])),
        raw::text(255, &[]),
    ]);
    parts.description[4] = 255;
    let text = text(&parts.bytes());
    let lines: Vec<&str> = text.lines().collect();
    assert_eq!(lines[0], "T\t0.90\t96\t2\t255\t7\tself\t-\t-\t-");
    assert_eq!(lines[1], "E\t16\t0B\t0\t-");
    assert_eq!(lines[2], "E\t46\t0B\t255\t-");
    assert_eq!(lines[3], "E\t76\t04\t0\t-");
    assert_eq!(lines[4], "E\t90\t0C\t-\t-");
    assert_eq!(lines.len(), 5);
}

/// The fast listing is the plain one, and leaves the rest of its buffer.
#[track_caller]
fn same(table: &[u8], settings: Settings) -> usize {
    let mut out = [0xA5; LISTING];
    let length = second::list(table, settings, &mut out);
    assert_eq!(
        out[..length],
        plain::listing(table, settings),
        "{table:02X?}"
    );
    assert_eq!(second::listing(table, settings), out[..length]);
    assert!(out[length..].iter().all(|&byte| byte == 0xA5));
    length
}

/// What both chips accept has one listing: it prints no chip.
#[test]
fn the_chip_is_not_printed() {
    let table = zoned(&[raw::analogue(1, 0x23), raw::digital(1, 3, 0x30)]);
    assert_eq!(
        second::listing(&table, ON_321),
        second::listing(&table, ON_320)
    );
    let table = zoned(&[raw::analogue(1, 0x24)]);
    assert_eq!(second::listing(&table, ON_321), b"R\t10\t46\n");
    assert!(text(&table).ends_with("E\t46\t02\t1\tP2.4\n"));
    let mut random = Random::new(33);
    for _ in 0..2_000 {
        let table = valid(&mut random, ON_321);
        assert_eq!(
            second::listing(&table, ON_321),
            second::listing(&table, ON_320)
        );
    }
}

#[test]
fn fast_and_plain_are_the_same() {
    let mut random = Random::new(31);
    for at in 0..20_000 {
        let [settings, made_for] = [at, at / 4].map(|at| Settings::ALL[at % 4]);
        same(&any(&mut random, made_for), settings);
        same(&valid(&mut random, made_for), settings);
    }
    for (_, table) in targeted() {
        for settings in Settings::ALL {
            same(table, settings);
        }
    }
}

#[test]
fn the_longest_lines_have_room() {
    let mut random = Random::new(32);
    for settings in Settings::ALL {
        for _ in 0..300 {
            let table = mixed(&mut random, settings);
            assert!(same(&table, settings) <= 47 + 96 * 29);
        }
    }
}
