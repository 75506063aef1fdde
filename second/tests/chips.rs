//! The two chips: P2.4 to P2.7 are on the 320 alone (document 02, 8/14; 000, Annex A, note 3), and a pin of a
//! record is written on its own chip only.


use crate::common::{changed, gives, gives_on, with, zoned, ON_320, ON_321};
use second::element::{read_description, read_element};
use second::generator::raw::{self, Parts};
use second::generator::{valid, writer_call, What};
use second::pins::{Pin, ALL, ANALOGUE, CHIP_SELECT, FAN_LIST, STATUS_LED};
use second::random::Random;
use second::record::{Address, Element};
use second::{append, start, Chip, Refusal, Verdict};

const FOUR: [u8; 4] = [0x24, 0x25, 0x26, 0x27];

/// An element of one use with this pin.
type Use = fn(u8) -> Vec<u8>;

/// Every use that a pin of the four can have in an element, each place of it.
const USES: [Use; 11] = [
    |pin| raw::analogue(1, pin),
    |pin| raw::current(1, pin),
    |pin| raw::led(1, [pin, 0xFF, 0xFF]),
    |pin| raw::led(1, [0xFF, pin, 0xFF]),
    |pin| raw::led(1, [0xFF, 0xFF, pin]),
    |pin| raw::digital(1, 3, pin),
    |pin| raw::controller(1, 3, pin, &[1]),
    |pin| raw::tachometer(1, 3, pin, 0, 0),
    |pin| raw::water(1, pin),
    |pin| raw::voltage(1, pin),
    |pin| raw::external(1, 3, pin, [0; 3]),
];

#[test]
fn the_four_pins_for_every_use() {
    for pin in FOUR {
        for made in USES {
            gives_on(Chip::F320, &zoned(&[made(pin)]), 0, 2);
            gives_on(Chip::F321, &zoned(&[made(pin)]), 10, 46);
        }
        for at in 9..12 {
            gives_on(Chip::F320, &changed(&[(at, pin)]), 0, 0);
            gives_on(Chip::F321, &changed(&[(at, pin)]), 10, 0);
        }
    }
    // The pins beside them stay, P3.0 too.
    for pin in [0x14, 0x17, 0x20, 0x22, 0x23, 0x30] {
        for made in USES {
            gives(&zoned(&[made(pin)]), 0, 2);
        }
        gives(&changed(&[(10, pin)]), 0, 0);
    }
}

/// Every pin byte for every use: permitted where the list has it and the chip has the pin.
#[test]
fn every_pin_byte_for_every_use() {
    let lists: [(&[u8], Use); 9] = [
        (&ANALOGUE, USES[0]),
        (&ANALOGUE, USES[1]),
        (&STATUS_LED, USES[4]),
        (&CHIP_SELECT, USES[5]),
        (&FAN_LIST, |pin| raw::fan(1, pin, 0xFF)),
        (&FAN_LIST, |pin| raw::pump(1, pin, 0xFF)),
        (&ANALOGUE, USES[8]),
        (&ANALOGUE, USES[9]),
        (&CHIP_SELECT, USES[10]),
    ];
    for chip in Chip::BOTH {
        for pin in 0..=254 {
            let lacking = chip == Chip::F321 && FOUR.contains(&pin);
            for (list, made) in lists {
                let good = list.contains(&pin) && !lacking;
                let (number, beside) = if good { (0, 2) } else { (10, 46) };
                gives_on(chip, &zoned(&[made(pin)]), number, beside);
            }
            let number = match ALL.contains(&pin) && !lacking {
                true if pin == 0x10 => 15,
                true => 0,
                false => 10,
            };
            gives_on(chip, &changed(&[(11, pin)]), number, 0);
        }
    }
}

/// A bus address and a code beside an unused light are no pins.
#[test]
fn the_same_bytes_that_are_no_pins() {
    for byte in FOUR {
        gives(&zoned(&[raw::digital(1, 0, byte)]), 0, 2);
        gives(&zoned(&[raw::controller(1, 1, byte, &[1])]), 0, 2);
        gives(&zoned(&[with(&[(9, byte)], raw::led(1, [0xFF; 3]))]), 0, 2);
        gives(&zoned(&[raw::text(1, &[byte; 10])]), 0, 2);
    }
}

#[test]
fn a_10_on_the_321_comes_before_13_14_15_on_the_320() {
    let sensor = || raw::analogue(1, 0x25);
    let alone = raw::table(&[sensor()]);
    gives_on(Chip::F320, &alone, 13, 16);
    gives_on(Chip::F321, &alone, 10, 16);
    let nameless = zoned(&[with(&[(3, 9)], sensor())]);
    gives_on(Chip::F320, &nameless, 14, 46);
    gives_on(Chip::F321, &nameless, 10, 46);
    let twice = zoned(&[sensor(), sensor()]);
    gives_on(Chip::F320, &twice, 15, 66);
    gives_on(Chip::F321, &twice, 10, 46);
    let strapped = changed(&[(9, 0x26), (10, 0x26), (4, 9)]);
    gives_on(Chip::F320, &strapped, 14, 0);
    gives_on(Chip::F321, &strapped, 10, 0);
    gives_on(Chip::F320, &changed(&[(9, 0x26), (10, 0x26)]), 15, 0);
}

/// In the pass an element is taken through all its rules before the next is looked at.
#[test]
fn where_10_stands_in_the_pass() {
    let sensor = || raw::current(1, 0x27);
    let again = zoned(&[raw::zone(1, 0), sensor()]);
    gives(&again, 12, 46);
    let later = zoned(&[sensor(), raw::zone(1, 0)]);
    gives_on(Chip::F320, &later, 12, 60);
    gives_on(Chip::F321, &later, 10, 46);
    let cut = zoned(&[sensor(), vec![8, 14]]);
    gives_on(Chip::F320, &cut, 6, 60);
    gives_on(Chip::F321, &cut, 10, 46);
    // 8 and 9 of the same element come before its 10.
    let longer = raw::element(0x08, &[&sensor()[3..], &[0]].concat());
    gives(&zoned(&[longer]), 8, 46);
    let reserved = with(&[(9, 0x00)], raw::led(1, [0x24, 0xFF, 0xFF]));
    gives(&zoned(&[reserved]), 9, 46);
    let thermal = with(&[(8, 2)], raw::analogue(1, 0x24));
    gives(&zoned(&[thermal]), 9, 46);
    gives(&zoned(&[raw::digital(1, 4, 0x24)]), 9, 46);
    // 1 to 5 come before the hardware revision pins, and these before all elements.
    gives(&changed(&[(9, 0x24), (8, 126)]), 5, 0);
    let mut parts = Parts::of(&[vec![0x77, 3, 0]]);
    parts.description[11] = 0x24;
    gives_on(Chip::F320, &parts.bytes(), 7, 16);
    gives_on(Chip::F321, &parts.bytes(), 10, 0);
}

/// With the same count, and the same records but for the chip.
#[test]
fn what_the_321_accepts_the_320_accepts() {
    let mut random = Random::new(8);
    for _ in 0..10_000 {
        let table = valid(&mut random, ON_321);
        let verdict = second::check(&table, ON_321);
        let Verdict::Accepted(count) = verdict else {
            panic!("{verdict:?}: {table:02X?}");
        };
        assert_eq!(second::check(&table, ON_320), verdict);
        let description = second::description(&table, ON_321).unwrap();
        assert_eq!(description, read_description(&table, Chip::F321));
        assert_eq!(
            second::layout::description(&description),
            second::layout::description(&second::description(&table, ON_320).unwrap())
        );
        let k = random.below(count + 1);
        let [on_320, on_321] =
            [ON_320, ON_321].map(|settings| second::element(&table, k, settings));
        match (on_320, on_321) {
            (Ok(one), Ok(other)) => {
                let [one, other] = [one, other].map(|record| second::layout::fixed(&record));
                assert_eq!(one.bytes(), other.bytes());
            }
            (one, other) => assert_eq!(one, other),
        }
        assert_eq!(
            second::part(&table, k, ON_320),
            second::part(&table, k, ON_321)
        );
    }
}

/// One element of each kind that has a pin place, on pins that both chips have.
fn with_pins() -> Vec<Vec<u8>> {
    vec![
        raw::digital(1, 3, 0x14),
        raw::analogue(1, 0x20),
        raw::fan(1, 0x05, 0x06),
        raw::fan(1, 0x05, 0xFF),
        raw::led(1, [0x00, 0xFF, 0xFF]),
        raw::led(1, [0xFF, 0xFF, 0x30]),
        raw::current(1, 0x23),
        raw::controller(1, 3, 0x13, &[1]),
        raw::tachometer(1, 3, 0x16, 0, 0),
        raw::rgb(1, 0x05, 0x06, 0x11),
        raw::water(1, 0x14),
        raw::pump(1, 0x05, 0x06),
        raw::pump(1, 0x05, 0xFF),
        raw::voltage(1, 0x30),
        raw::external(1, 3, 0x05, [0; 3]),
    ]
}

/// Appended behind 20 bytes, with or without room, from records on this chip.
fn appended(to: Chip, pins: Chip, bytes: &[u8], room: usize) -> Result<usize, Refusal> {
    let (record, part) = read_element(bytes, pins).unwrap();
    let mut buffer = vec![0xA5; 20 + room];
    buffer[1..3].copy_from_slice(&[20, 0]);
    let before = buffer.clone();
    let answer = append(&mut buffer, to, &record, part);
    assert_eq!(answer.is_err(), buffer == before);
    answer
}

/// 10 at the length so far, even where both chips have the pin, and before 16.
#[test]
fn append_refuses_a_pin_of_the_other_chip() {
    for bytes in with_pins() {
        for chip in Chip::BOTH {
            let new_length = 20 + bytes.len();
            assert_eq!(appended(chip, chip, &bytes, 60), Ok(new_length));
            let other = chip.other();
            assert_eq!(appended(chip, other, &bytes, 60), Err(Refusal::at(10, 20)));
            assert_eq!(appended(chip, other, &bytes, 0), Err(Refusal::at(10, 20)));
            assert_eq!(appended(chip, chip, &bytes, 0), Err(Refusal::at(16, 0)));
        }
    }
}

/// An unused place is of no chip, and so is a bus address.
#[test]
fn append_takes_what_has_no_pins_on_both_chips() {
    for bytes in [
        raw::led(1, [0xFF; 3]),
        raw::digital(1, 0, 0x24),
        raw::controller(1, 1, 0x4E, &[1]),
        raw::tachometer(1, 0, 0x40, 0, 0),
        raw::external(1, 1, 0x40, [0; 3]),
        raw::zone(1, 0),
        raw::text(1, b"xy"),
    ] {
        for chip in Chip::BOTH {
            let new_length = 20 + bytes.len();
            assert_eq!(appended(chip, chip, &bytes, 60), Ok(new_length));
            assert_eq!(appended(chip, chip.other(), &bytes, 60), Ok(new_length));
        }
    }
}

/// The four pins: on the 320 alone, and on the 321 not even as pins of the 321.
#[test]
fn append_on_the_four_pins() {
    for pin in FOUR {
        for made in USES {
            let bytes = made(pin);
            let good = appended(Chip::F320, Chip::F320, &bytes, 60);
            assert_eq!(good, Ok(20 + bytes.len()));
            for (to, pins) in [
                (Chip::F320, Chip::F321),
                (Chip::F321, Chip::F320),
                (Chip::F321, Chip::F321),
            ] {
                assert_eq!(appended(to, pins, &bytes, 60), Err(Refusal::at(10, 20)));
            }
        }
    }
}

/// 25, 8 and 9 come before the 10 of a pin of the other chip.
#[test]
fn append_refuses_for_other_reasons_first() {
    let pins = Chip::F321;
    let call = |record: &Element, part: &[u8]| {
        let mut buffer = vec![0xA5; 60];
        buffer[1..3].copy_from_slice(&[20, 0]);
        append(&mut buffer, Chip::F320, record, part)
    };
    let Some((Element::StatusLed(led), _)) = read_element(&raw::led(1, [0x14; 3]), pins) else {
        panic!("no LED");
    };
    assert_eq!(
        call(&Element::StatusLed(led), &[]),
        Err(Refusal::at(10, 20))
    );
    assert_eq!(
        call(&Element::StatusLed(led), &[1]),
        Err(Refusal::at(8, 20))
    );
    let mut bent = led;
    bent.lights[2].colour = 6;
    assert_eq!(
        call(&Element::StatusLed(bent), &[]),
        Err(Refusal::at(9, 20))
    );
    bent.lights[1].purpose = 16;
    assert_eq!(
        call(&Element::StatusLed(bent), &[]),
        Err(Refusal::at(25, 0))
    );
    // One pin of the three is enough.
    let mut one = led;
    one.lights = [0x14, 0x15, 0x16].map(|byte| second::record::Light {
        pin: Pin::on(Chip::F320, byte),
        ..led.lights[0]
    });
    assert_eq!(call(&Element::StatusLed(one), &[]), Ok(34));
    one.lights[2].pin = Pin::on(pins, 0x16);
    assert_eq!(
        call(&Element::StatusLed(one), &[]),
        Err(Refusal::at(10, 20))
    );
    // An address of the other kind than its bus type has is 9, whatever chip its pin is of.
    let (record, part) = read_element(&raw::CONTROLLER_C, pins).unwrap();
    let Element::Controller(mut controller) = record else {
        panic!("no controller");
    };
    controller.attachment.address = Address::Select(Pin::on(pins, 0x14));
    let answer = call(&Element::Controller(controller), part);
    assert_eq!(answer, Err(Refusal::at(9, 20)));
    controller.attachment.bus_type = 3;
    let answer = call(&Element::Controller(controller), part);
    assert_eq!(answer, Err(Refusal::at(10, 20)));
}

#[test]
fn start_refuses_a_pin_of_the_other_chip() {
    for place in 9..12 {
        for chip in Chip::BOTH {
            let told = |pin: u8, pins: Chip| {
                let mut buffer = [0xA5; 18];
                let record = read_description(&changed(&[(place, pin)]), pins);
                let answer = start(&mut buffer, chip, &record);
                assert_eq!(answer.is_err(), buffer == [0xA5; 18]);
                answer
            };
            for pin in [0x00, 0x23, 0x30] {
                assert_eq!(told(pin, chip), Ok(16));
                assert_eq!(told(pin, chip.other()), Err(Refusal::at(10, 0)));
            }
            for pin in FOUR {
                let good = chip == Chip::F320;
                assert_eq!(told(pin, chip).is_ok(), good);
                assert_eq!(told(pin, chip.other()), Err(Refusal::at(10, 0)));
            }
            // Unused is of no chip.
            assert_eq!(told(0xFF, chip.other()), Ok(16));
        }
    }
    // 1, 25, 4 and 5 come first.
    let mut record = read_description(&changed(&[(9, 0x14)]), Chip::F320);
    let refused = |record: &_| start(&mut [0; 16], Chip::F321, record).unwrap_err().number;
    assert_eq!(refused(&record), 10);
    record.self_powered = false;
    record.power.0 = 126;
    assert_eq!(refused(&record), 5);
    record.device_type = 0;
    assert_eq!(refused(&record), 4);
    record.serial = 1 << 24;
    assert_eq!(refused(&record), 25);
    let short = start(&mut [0; 15], Chip::F321, &record);
    assert_eq!(short, Err(Refusal::at(1, 0)));
}

/// Generated records on the other chip: 10 where a pin is used, unless another number comes before it;
/// and without a used pin the answer is that of the same record on the chip itself.
#[test]
fn generated_calls_with_pins_of_the_other_chip() {
    let mut random = Random::new(81);
    let mut tens = 0;
    let mut same = 0;
    for _ in 0..60_000 {
        let call = writer_call(&mut random);
        let What::Append(record, part) = &call.what else {
            continue;
        };
        if call.pins == call.chip {
            continue;
        }
        let told = |chip| append(&mut call.buffer.clone(), chip, record, part);
        let (answer, own) = (told(call.chip), told(call.pins));
        let used = !second::plain::own_pins(record).is_empty();
        let later = own.map_or_else(|refusal| [10, 16].contains(&refusal.number), |_| true);
        if used && later {
            assert_eq!(
                answer.map_err(|refusal| refusal.number),
                Err(10),
                "{call:?}"
            );
            tens += 1;
        } else {
            assert_eq!(answer, own, "{call:?}");
            same += 1;
        }
    }
    assert!(tens > 300 && same > 1_000, "{tens} {same}");
}

/// A table is written again on a chip that accepts it, from records of that chip.
#[test]
fn tables_written_for_a_chip_are_accepted_by_it() {
    let mut random = Random::new(82);
    for at in 0..2_000 {
        let chip = Chip::BOTH[at % 2];
        let table = valid(&mut random, chip.into());
        let mut out = vec![0; table.len()];
        let answer = second::rewrite_by_records(&table, chip, &mut out);
        assert_eq!(answer, Ok(table.len()));
        let [old, new] = [&table, &out].map(|bytes| second::check(bytes, chip.into()));
        assert_eq!(new, old);
    }
}
