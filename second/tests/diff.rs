//! Two tables side by side: a line for each field in which their records differ.


use crate::common::with;
use second::answer::MOST_ELEMENTS;
use second::diff::{diff, diff_text, Refused, DIFF};
use second::element::id;
use second::generator::raw::{self, Parts, FAN_F, TABLE_A};
use second::generator::{altered, any, beside, mixed_of, targeted, valid};
use second::random::Random;
use second::{cleared, plain, Chip, Refusal, Rules, Settings};
use std::collections::HashSet;

/// On both chips, both ways that the program has, this text.
#[track_caller]
fn gives(one: &[u8], two: &[u8], text: &str) {
    for chip in Chip::BOTH {
        let seen = diff_text(one, two, chip).map(|text| String::from_utf8(text).unwrap());
        assert_eq!(seen.as_deref(), Ok(text), "{one:02X?} {two:02X?}");
        assert_eq!(plain::diff(one, two, chip), Ok(text.as_bytes().to_vec()));
    }
}

/// On both chips this refusal of this table, and no byte of the buffer altered.
#[track_caller]
fn refuses(one: &[u8], two: &[u8], table: u8, number: u8, place: usize) {
    let refusal = Refusal::at(number, place);
    let wanted = Err(Refused { table, refusal });
    for chip in Chip::BOTH {
        let mut out = Box::new([0xA5; DIFF]);
        assert_eq!(diff(one, two, chip, &mut out), wanted);
        assert!(out.iter().all(|&byte| byte == 0xA5));
        assert_eq!(plain::diff(one, two, chip), wanted.map(|_| Vec::new()));
    }
}

/// The lines with their two sides exchanged.
fn exchanged(text: &str) -> String {
    let turned = |line: &str| {
        let fields: Vec<&str> = line.split('\t').collect();
        let [d, one, two, name, first, second] = fields[..] else {
            panic!("{line}");
        };
        format!("{d}\t{two}\t{one}\t{name}\t{second}\t{first}\n")
    };
    text.lines().map(turned).collect()
}

/// Every field of the description and of every kind has its line, alone, and on either side.
#[test]
fn one_field_altered() {
    for row in altered() {
        gives(&row.one, &row.two, &row.line);
        gives(&row.two, &row.one, &exchanged(&row.line));
        gives(&row.one, &row.one, "");
        gives(&row.two, &row.two, "");
    }
}

/// The names that document 000 has, in small letters and layout order, each in some pair that is altered there. The thermal type
/// can only be 1, so that no two accepted tables differ in it.
#[test]
fn the_names_are_all_there() {
    let common = "string index,x pos,y pos,z pos,zone identifier";
    let fan = "pwm,tach,ppr,minimum rpm,maximum rpm,minimum duty cycle";
    let led = "pin1,color1,purpose1,pin2,color2,purpose2,pin3,color3,purpose3";
    let digital =
        "bus type,device address,temperature lsb read register,temperature msb read register,\
                   minimum value,minimum temp,maximum value,maximum temp";
    let description = "esa device type,string index,serial number,spwr,power units,\
                       hardware revision 0,hardware revision 1,hardware revision 2";
    let blocks = "bus type,device address,variable part";
    let own = [
        (id::DIGITAL_SENSOR, digital),
        (
            id::ANALOGUE_SENSOR,
            "pin,value0,value25,value50,value75,value100",
        ),
        (id::FAN, fan),
        (id::STATUS_LED, led),
        (id::WATER_LEVEL, "pin,full,empty,warning"),
        (id::PUMP, fan),
        (id::VOLTAGE, "pin,vmax,vmin"),
        (id::CURRENT, "pin,imin,imax"),
        (id::CONTROLLER, blocks),
        (id::TACHOMETER, blocks),
        (
            id::EXTERNAL_RGB,
            "bus type,device address,chip identifier,variable part",
        ),
        (id::RGB_LED, "red,green,blue"),
    ];
    let mut wanted: HashSet<(u8, &str)> = description.split(',').map(|name| (0, name)).collect();
    for (kind, names) in own {
        wanted.extend(
            common
                .split(',')
                .chain(names.split(','))
                .map(|name| (kind, name)),
        );
    }
    wanted.extend([(id::ZONE, "variable part"), (id::TEXT, "variable part")]);
    let rows = altered();
    let seen: HashSet<(u8, &str)> = rows.iter().map(|row| (row.identifier, row.field)).collect();
    assert_eq!(seen, wanted);
}

/// Two tables that differ in everything: the description, then the elements, each in layout order.
#[test]
fn the_order_of_lines() {
    let mut one = Parts::of(&[
        FAN_F.to_vec(),
        raw::zone(1, 0),
        raw::led(1, [0x14, 0xFF, 0xFF]),
    ]);
    let mut two = Parts::of(&[
        with(
            &[
                (3, 1),
                (4, 1),
                (5, 2),
                (6, 3),
                (7, 2),
                (8, 6),
                (9, 0xFF),
                (10, 0),
            ],
            FAN_F.to_vec(),
        ),
        raw::zone(2, 1),
        raw::led(2, [0xFF, 0x15, 0xFF]),
        raw::text(1, &[]),
    ]);
    one.description = with(&[(3, 1), (8, 0x19), (9, 0x30)], TABLE_A.to_vec())
        .try_into()
        .unwrap();
    two.description = with(&[(4, 1), (6, 1), (8, 0x9A), (10, 0x30)], TABLE_A.to_vec())
        .try_into()
        .unwrap();
    let zeros = "00".repeat(25);
    let wanted = format!(
        "D\t0\t0\tesa device type\t1\t2\nD\t0\t0\tstring index\t0\t1\nD\t0\t0\tserial number\t7\t263\n\
         D\t0\t0\tspwr\t0\t1\nD\t0\t0\tpower units\t25\t26\nD\t0\t0\thardware revision 0\tP3.0\t-\n\
         D\t0\t0\thardware revision 1\t-\tP3.0\n\
         D\t16\t16\tstring index\t0\t1\nD\t16\t16\tx pos\t255\t1\nD\t16\t16\ty pos\t255\t2\nD\t16\t16\tz pos\t255\t3\n\
         D\t16\t16\tzone identifier\t1\t2\nD\t16\t16\tpwm\tP0.5\tP0.6\nD\t16\t16\ttach\tP0.6\t-\nD\t16\t16\tppr\t2\t0\n\
         D\t32\t32\tvariable part\t0100{zeros}\t0201{zeros}\n\
         D\t62\t62\tzone identifier\t1\t2\nD\t62\t62\tpin1\tP1.4\t-\nD\t62\t62\tcolor1\t1\t0\nD\t62\t62\tpurpose1\t1\t0\n\
         D\t62\t62\tpin2\t-\tP1.5\nD\t62\t62\tcolor2\t0\t1\nD\t62\t62\tpurpose2\t0\t1\n\
         D\t-\t76\tkind\t-\t0C\n"
    );
    gives(&one.bytes(), &two.bytes(), &wanted);
    gives(&two.bytes(), &one.bytes(), &exchanged(&wanted));
}

/// A pair of different kinds has one line and no other; a fan and a pump are two kinds.
#[test]
fn kinds_exchanged() {
    let [fan, zone] = [FAN_F.to_vec(), raw::zone(1, 0)];
    let pump = raw::pump(2, 0x06, 0xFF);
    let tables = [
        raw::table(&[fan.clone(), zone.clone()]),
        raw::table(&[zone.clone(), fan.clone()]),
        raw::table(&[pump, zone.clone(), raw::zone(2, 0)]),
        raw::table(&[raw::rgb(1, 5, 6, 0x11), zone.clone()]),
    ];
    gives(
        &tables[0],
        &tables[1],
        "D\t16\t16\tkind\t03\t0B\nD\t32\t46\tkind\t0B\t03\n",
    );
    gives(
        &tables[0],
        &tables[2],
        "D\t16\t16\tkind\t03\t06\nD\t-\t62\tkind\t-\t0B\n",
    );
    gives(&tables[3], &tables[0], "D\t16\t16\tkind\t0E\t03\n");
}

/// Unequal offsets and lengths make no line of their own, and an element without a partner has one.
#[test]
fn one_longer() {
    let [zone, fan] = [raw::zone(1, 0), FAN_F.to_vec()];
    let short = raw::table(&[raw::text(1, &[0x41, 0]), zone.clone(), fan.clone()]);
    let long = raw::table(&[raw::text(1, &[0x41, 0, 0x42, 0]), zone.clone(), fan.clone()]);
    gives(
        &short,
        &long,
        "D\t16\t16\tvariable part\t0109044100\t01090441004200\n",
    );
    let slower = with(&[(35, 0x30)], short.clone());
    let [before, behind] = ["01", ""].map(|number| format!("{number}{}", "00".repeat(18)));
    let lines = format!(
        "D\t16\t16\tvariable part\t0109044100\t01090441004200\n\
         D\t24\t26\tvariable part\t01{}30{behind}\t{before}{}\n",
        "00".repeat(7),
        "00".repeat(8)
    );
    gives(&slower, &long, &lines);
    let empty = raw::table(&[]);
    gives(
        &empty,
        &short,
        "D\t-\t16\tkind\t-\t0C\nD\t-\t24\tkind\t-\t0B\nD\t-\t54\tkind\t-\t03\n",
    );
    gives(
        &short,
        &empty,
        "D\t16\t-\tkind\t0C\t-\nD\t24\t-\tkind\t0B\t-\nD\t54\t-\tkind\t03\t-\n",
    );
}

/// The address is one field: the seven-bit number, or the pin; its reserved bit and the others make no line.
#[test]
fn addresses_and_reserved_places() {
    let beside = |sensor: Vec<u8>| raw::table(&[raw::zone(1, 0), sensor]);
    let bus = beside(raw::digital(1, 0, 0x40));
    gives(&bus, &beside(raw::digital(1, 0xF0, 0x41)), "");
    gives(
        &bus,
        &beside(raw::digital(1, 0xA3, 0x14)),
        "D\t46\t46\tbus type\t0\t3\nD\t46\t46\tdevice address\t32\tP1.4\n",
    );
    // 28h as a chip select would be no pin; as a bus address it is 20.
    gives(
        &beside(raw::digital(1, 3, 0x14)),
        &beside(raw::digital(1, 1, 0x28)),
        "D\t46\t46\tbus type\t3\t1\nD\t46\t46\tdevice address\tP1.4\t20\n",
    );
    let elements = [
        raw::zone(1, 0),
        raw::analogue(1, 0x14),
        raw::current(1, 0x15),
        raw::controller(1, 3, 0x16, &[1]),
        raw::tachometer(1, 0, 0x40, 0, 0),
        raw::external(1, 2, 0x40, [0, 0, 0]),
    ];
    let plain = raw::table(&elements);
    let mut tainted = with(&[(12, 1), (13, 2), (14, 3), (15, 0xFF)], plain.clone());
    for (at, bits) in [
        (54, 0xF0),
        (75, 9),
        (88, 0x50),
        (90, 0x77),
        (105, 0x80),
        (106, 1),
        (107, 8),
        (108, 5),
        (119, 0x10),
        (120, 1),
        (121, 3),
    ] {
        tainted[at] ^= bits;
    }
    gives(&plain, &tainted, "");
    gives(&tainted, &plain, "");
    assert_ne!(plain, tainted);
}

/// The reader's, by the archive's rules, the first table first.
#[test]
fn refusals() {
    let good = raw::table(&[raw::zone(1, 0), FAN_F.to_vec()]);
    let no_zone = raw::table(&[FAN_F.to_vec()]);
    let no_string = with(&[(4, 9)], good.clone());
    refuses(&no_zone, &good, 1, 13, 16);
    refuses(&good, &no_zone, 2, 13, 16);
    refuses(&no_string, &no_zone, 1, 14, 0);
    refuses(&no_zone, &no_string, 1, 13, 16);
    refuses(&[], &[], 1, 1, 0);
    refuses(&good, &[], 2, 1, 0);
    refuses(&good, &good[..61], 2, 3, 0);
    refuses(&good, &[&good[..], &[0]].concat(), 2, 3, 0);
    refuses(&with(&[(0, 0x10)], good.clone()), &good, 1, 2, 0);
    let old = raw::table(&[raw::zone(1, 0), raw::digital(1, 2, 0x40)]);
    let new = raw::table(&[raw::zone(1, 0), raw::digital(1, 1, 0x40)]);
    gives(&old, &new, "D\t46\t46\tbus type\t2\t1\n");
    gives(&old, &old, "");
    refuses(&old, &raw::table(&[raw::digital(1, 2, 0x40)]), 2, 13, 16);
}

/// A pin that the 320 alone has.
#[test]
fn one_chip_for_both() {
    let both = raw::table(&[raw::zone(1, 0), raw::water(1, 0x23)]);
    let larger = raw::table(&[raw::zone(1, 0), raw::water(1, 0x24)]);
    let line = b"D\t46\t46\tpin\tP2.3\tP2.4\n";
    assert_eq!(diff_text(&both, &larger, Chip::F320).unwrap(), line);
    let refusal = Refusal::at(10, 46);
    let refused = |table| Err(Refused { table, refusal });
    assert_eq!(diff_text(&both, &larger, Chip::F321), refused(2));
    assert_eq!(diff_text(&larger, &both, Chip::F321), refused(1));
    assert_eq!(diff_text(&larger, &larger, Chip::F321), refused(1));
}

/// As long as a text can nearly be: 94 digital sensors that differ in every field, and parts that fill both tables.
#[test]
fn the_longest_fits() {
    let make = |side: u8| {
        let fill = |low: u8, high: u8| if side == 1 { low } else { high };
        let mut parts = Parts::of(&[raw::zone(fill(101, 102), 0)]);
        parts.description = with(
            &[
                (4, fill(101, 102)),
                (7, 0xFF - side),
                (8, fill(0xE4, 0x64)),
                (9, 0x11 + side),
            ],
            TABLE_A.to_vec(),
        )
        .try_into()
        .unwrap();
        let mut sensor = raw::digital(fill(101, 102), fill(0, 3), fill(0xF0, 0x14));
        sensor[3] = fill(101, 102);
        sensor[4..7].fill(fill(201, 202));
        sensor[11..21].fill(fill(0xFE, 0xFF));
        parts.elements.extend(vec![sensor; MOST_ELEMENTS - 2]);
        let room = 4096 - parts.bytes().len() - 6;
        parts.elements.push(raw::text(
            fill(101, 102),
            &vec![fill(0x41, 0x42); room / 2 * 2],
        ));
        parts.bytes()
    };
    let (one, two) = (make(1), make(2));
    let text = diff_text(&one, &two, Chip::F320).unwrap();
    assert!((50_000..DIFF).contains(&text.len()), "{}", text.len());
    assert_eq!(plain::diff(&one, &two, Chip::F320), Ok(text));
}

/// All that holds of any two tables; gives the text where both are accepted.
fn hold(one: &[u8], two: &[u8], chip: Chip) -> Option<String> {
    let mut out = Box::new([0xA5; DIFF]);
    let answer = diff(one, two, chip, &mut out);
    let length = answer.unwrap_or(0);
    assert!(out[length..].iter().all(|&byte| byte == 0xA5));
    assert_eq!(
        answer.map(|_| out[..length].to_vec()),
        plain::diff(one, two, chip)
    );
    let back = diff_text(two, one, chip);
    let archive = Settings::new(chip, Rules::Archive);
    let verdicts = [one, two].map(|table| second::check(table, archive));
    let Ok(length) = answer else {
        let first = verdicts
            .iter()
            .position(|verdict| verdict.number() != 0)
            .unwrap();
        let refusal = verdicts[first].into_result().unwrap_err();
        let table = first as u8 + 1;
        assert_eq!(answer, Err(Refused { table, refusal }));
        assert!(back.is_err());
        return None;
    };
    let text = String::from_utf8(out[..length].to_vec()).unwrap();
    assert_eq!(String::from_utf8(back.unwrap()).unwrap(), exchanged(&text));
    // What is left of a table without its reserved places is what its records say.
    assert_eq!(text.is_empty(), cleared(one) == cleared(two));
    Some(text)
}

#[test]
fn generated_pairs() {
    let mut random = Random::new(5);
    let (mut lines, mut equal) = (0, 0);
    for at in 0..1_500 {
        let settings = Settings::ALL[at % 4];
        let one = match at % 3 {
            0 => any(&mut random, settings),
            1 => valid(&mut random, settings),
            _ => mixed_of(&mut random, 1 + at % 96, settings),
        };
        let two = beside(&mut random, &one, settings);
        for text in Chip::BOTH.iter().filter_map(|&chip| hold(&one, &two, chip)) {
            lines += text.lines().count();
            equal += usize::from(text.is_empty());
        }
    }
    assert!(lines > 2_000 && equal > 100, "{lines} lines, {equal} equal");
}

#[test]
fn named_cases_beside_each_other() {
    let cases = targeted();
    for (at, (_, one)) in cases.iter().enumerate() {
        for other in [at + 1, 2 * at + 7] {
            hold(one, &cases[other % cases.len()].1, Chip::BOTH[at % 2]);
        }
    }
}
