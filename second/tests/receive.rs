//! The receiver: cut anywhere, a table has the verdict that it has in one piece.


use crate::common::{changed, with, zoned, ON_320};
use second::generator;
use second::generator::raw::{self, CONTROLLER_C, FAN_F, TABLE_A};
use second::random::Random;
use second::{plain, Receiver, Refusal, Settings};

/// What comes back for a piece or an end after the end.
const AFTER_END: Refusal = Refusal::at(20, 0);

/// Both receivers, fed alike.
struct Both(Receiver, plain::Receiver);

impl Both {
    fn start(settings: Settings) -> Both {
        Both(Receiver::start(settings), plain::Receiver::start(settings))
    }

    /// No verdict before the end: a piece answers 0, and one of no bytes changes nothing.
    #[track_caller]
    fn piece(&mut self, piece: &[u8]) {
        let before = piece.is_empty().then(|| self.0.clone());
        assert_eq!(self.0.piece(piece), Ok(()));
        assert_eq!(self.1.piece(piece), Ok(()));
        assert!(before.is_none_or(|before| before == self.0));
    }

    /// Both agree; afterwards all is 20 at 0 and the state is kept.
    #[track_caller]
    fn end(mut self) -> Result<usize, Refusal> {
        let verdict = self.0.end();
        assert_eq!(self.1.end(), verdict);
        let kept = (self.0.clone(), self.1.clone());
        for piece in [&[][..], &[1], &TABLE_A] {
            assert_eq!(self.0.piece(piece), Err(AFTER_END));
            assert_eq!(self.1.piece(piece), Err(AFTER_END));
            assert_eq!(self.0.end(), Err(AFTER_END));
            assert_eq!(self.1.end(), Err(AFTER_END));
        }
        assert_eq!((self.0, self.1), kept);
        verdict
    }
}

/// The verdict of the fast receiver alone, for very many cuttings.
fn of_pieces<'t>(
    settings: Settings,
    pieces: impl IntoIterator<Item = &'t [u8]>,
) -> Result<usize, Refusal> {
    let mut receiver = Receiver::start(settings);
    for piece in pieces {
        assert_eq!(receiver.piece(piece), Ok(()));
    }
    receiver.end()
}

/// Pieces between offsets that rise.
fn cut_at<'t>(table: &'t [u8], cuts: &[usize]) -> Vec<&'t [u8]> {
    let starts = [&[0], cuts].concat();
    let ends = [cuts, &[table.len()]].concat();
    let pieces = starts.iter().zip(&ends);
    pieces.map(|(&start, &end)| &table[start..end]).collect()
}

fn whole(table: &[u8], settings: Settings) -> Result<usize, Refusal> {
    second::check(table, settings).into_result()
}

/// A cut inside each thing that can be cut: a header, a register pair, a UTF-16 unit, a surrogate pair.
fn small_tables() -> Vec<Vec<u8>> {
    let string = |units: &[u16]| {
        let text: Vec<u8> = units.iter().flat_map(|unit| unit.to_le_bytes()).collect();
        raw::text(7, &text)
    };
    let c = |entries: u8| with(&[(12, entries)], CONTROLLER_C.to_vec());
    vec![
        TABLE_A.to_vec(),
        changed(&[(0, 0x10)]),
        changed(&[(3, 9)]),
        changed(&[(4, 7)]),
        changed(&[(8, 0x7E)]),
        changed(&[(9, 0x10)]),
        changed(&[(9, 0x24)]),
        raw::table(&[vec![3]]),
        raw::table(&[vec![3, 16]]),
        raw::table(&[vec![3, 2, 0]]),
        raw::table(&[vec![3, 3, 0]]),
        raw::table(&[vec![12, 3, 0], vec![0xFF]]),
        raw::table(&[string(&[])]),
        raw::table(&[string(&[0xD83C])]),
        raw::table(&[string(&[0xD83C, 0xDF19])]),
        raw::table(&[string(&[0xDF19, 0xD83C])]),
        raw::table(&[raw::text(7, &[0x41])]),
        raw::table(&[FAN_F.to_vec()]),
        raw::table(&[FAN_F.to_vec(), FAN_F.to_vec()]),
        zoned(&[raw::fan(1, 0x05, 0xFF), raw::fan(2, 0x06, 0xFF)]),
        zoned(&[c(1)]),
        zoned(&[c(2)]),
        zoned(&[c(0)]),
        zoned(&[raw::controller(1, 2, 0x40, &[1, 2])]),
        zoned(&[raw::tachometer(1, 3, 0x14, 0, 2), raw::analogue(1, 0x14)]),
        zoned(&[raw::external(1, 0, 0x40, [1, 0, 2])]),
        zoned(&[raw::external(1, 3, 0x24, [0, 0, 1]), vec![0x0D]]),
        raw::table(&[raw::zone(1, 7), raw::zone(2, 7), string(&[0x41])]),
    ]
}

/// Every cutting there is of a table of few bytes: after each byte a cut or none.
#[test]
fn every_cutting_of_the_smallest() {
    let tables = small_tables();
    for (at, table) in tables.iter().filter(|table| table.len() <= 19).enumerate() {
        let settings = Settings::ALL[at % 4];
        let verdict = whole(table, settings);
        let mut cuts = Vec::new();
        for cutting in 0..1u32 << (table.len() - 1) {
            cuts.clear();
            cuts.extend((1..table.len()).filter(|at| cutting >> (at - 1) & 1 != 0));
            let answer = of_pieces(settings, cut_at(table, &cuts));
            assert_eq!(answer, verdict, "{cuts:?} {table:02X?}");
        }
    }
}

/// Every cutting into two and into three pieces, of those with empty pieces too, and every single byte.
#[test]
fn every_two_cuts_of_small_tables() {
    for table in small_tables() {
        for settings in Settings::ALL {
            let verdict = whole(&table, settings);
            for first in 0..=table.len() {
                for second in first..=table.len() {
                    let answer = of_pieces(settings, cut_at(&table, &[first, second]));
                    assert_eq!(answer, verdict, "{first}, {second}: {table:02X?}");
                }
            }
            assert_eq!(of_pieces(settings, table.chunks(1)), verdict);
        }
    }
}

/// Both receivers on one table: reports of 64, single bytes, and cuts of chance with empty pieces.
fn agree(name: &str, table: &[u8], settings: Settings, random: &mut Random) {
    let verdict = whole(table, settings);
    for size in [64, 1] {
        let mut both = Both::start(settings);
        table.chunks(size).for_each(|piece| both.piece(piece));
        assert_eq!(both.end(), verdict, "{name}, {settings}, reports of {size}");
    }
    let mut both = Both::start(settings);
    let mut at = 0;
    while at < table.len() {
        let most = *random.pick(&[1, 2, 5, 40, 200]);
        let end = (at + random.below(most + 1)).min(table.len());
        both.piece(&table[at..end]);
        at = end;
    }
    assert_eq!(both.end(), verdict, "{name}, {settings}, cuts of chance");
}

#[test]
fn on_all_targeted_tables() {
    let mut random = Random::new(40);
    for (at, (name, table)) in generator::targeted().iter().enumerate() {
        agree(name, table, Settings::ALL[at / 2 % 4], &mut random);
    }
}

#[test]
fn on_tables_of_any_sort() {
    let mut random = Random::new(41);
    for at in 0..20_000 {
        let settings = Settings::ALL[at % 4];
        let table = generator::any(&mut random, settings);
        agree("any", &table, settings, &mut random);
    }
}

/// Long tables of every kind with a few bytes changed, each at one cut of every offset in turn.
#[test]
fn on_long_mixed_tables_with_faults() {
    let mut random = Random::new(42);
    for at in 0..2_000 {
        let settings = Settings::ALL[at % 4];
        let mut table = generator::mixed(&mut random, settings);
        for _ in 0..random.below(3) {
            let at = random.below(table.len());
            table[at] = random.byte();
        }
        agree("long and mixed", &table, settings, &mut random);
        let verdict = whole(&table, settings);
        for cut in (at % 7..table.len()).step_by(7) {
            let answer = of_pieces(settings, cut_at(&table, &[cut]));
            assert_eq!(answer, verdict, "{cut}: {table:02X?}");
        }
    }
}

#[test]
fn without_a_piece() {
    for settings in Settings::ALL {
        assert_eq!(Both::start(settings).end(), Err(Refusal::at(1, 0)));
        let mut both = Both::start(settings);
        both.piece(&[]);
        both.piece(&[]);
        assert_eq!(both.end(), Err(Refusal::at(1, 0)));
    }
}

/// No piece tells what is known already: not the revision, not the length, not an element.
#[test]
fn no_verdict_before_the_end() {
    let mut both = Both::start(ON_320);
    both.piece(&[0x10]);
    both.piece(&[0xFF; 70_000]);
    both.piece(&[]);
    assert_eq!(both.end(), Err(Refusal::at(2, 0)));
    let mut both = Both::start(ON_320);
    both.piece(&raw::table(&[vec![0xFF; 3]]));
    both.piece(&[]);
    assert_eq!(both.end(), Err(Refusal::at(6, 16)));
}

/// 3 is known last and stands before every rule of elements, 1 and 2 before 3.
#[test]
fn more_and_fewer_bytes_than_are_told() {
    let good = zoned(&[FAN_F.to_vec()]);
    let bad = zoned(&[with(&[(8, 0x07)], FAN_F.to_vec())]);
    for table in [&good, &bad] {
        for length in 0..table.len() {
            let number = if length < 16 { 1 } else { 3 };
            let mut both = Both::start(ON_320);
            both.piece(&table[..length]);
            assert_eq!(both.end(), Err(Refusal::at(number, 0)), "{length}");
        }
        for more in [1, 2, 3, 16, 4_096, 65_536] {
            for first in [0, 1] {
                let mut both = Both::start(ON_320);
                both.piece(&with(&[(0, first)], table.clone()));
                vec![0; more].chunks(64).for_each(|piece| both.piece(piece));
                let number = if first == 1 { 3 } else { 2 };
                assert_eq!(both.end(), Err(Refusal::at(number, 0)), "{more} more");
            }
        }
    }
}

/// Told lengths under 16, over 4,096, and all others, of tables that have no fault but that.
#[test]
fn every_told_length() {
    for length in [15, 16, 17, 62, 4_095, 4_096, 4_097, 65_535, 65_536, 65_552] {
        let mut table = TABLE_A.to_vec();
        table.resize(length, 0);
        for said in 0..=u16::MAX {
            if said > 80 && said % 61 != 0 && !(4_090..4_100).contains(&said) {
                continue;
            }
            table[1..3].copy_from_slice(&said.to_le_bytes());
            let verdict = whole(&table, ON_320);
            let answer = of_pieces(ON_320, table.chunks(61));
            assert_eq!(answer, verdict, "{length} bytes that say {said}");
        }
    }
}

/// 2^32 and 16 bytes that say 16: bytes behind the table are counted and not read.
#[test]
fn the_count_does_not_wrap() {
    let mut receiver = Receiver::start(ON_320);
    receiver.piece(&TABLE_A).unwrap();
    let mebibyte = vec![0; 1 << 20];
    for _ in 0..1 << 12 {
        receiver.piece(&mebibyte).unwrap();
    }
    assert_eq!(receiver.end(), Err(Refusal::at(3, 0)));
}

/// The refusal of a table that comes three bytes at a time.
fn refusal(elements: &[Vec<u8>]) -> (u8, usize) {
    let mut both = Both::start(ON_320);
    raw::table(elements)
        .chunks(3)
        .for_each(|piece| both.piece(piece));
    let refusal = both.end().unwrap_err();
    (refusal.number, refusal.place)
}

/// 13, 14 and 15 have their first place though nobody walks back; and what is declared is known at the end alone.
#[test]
fn places_of_the_last_three() {
    let volts = |string: u8, zone: u8, pin: u8| with(&[(3, string)], raw::voltage(zone, pin));
    let lamps = |first: u8, second: u8| raw::led(1, [first, second, 0xFF]);
    let zone = raw::zone;
    // The earlier of two zones, not the lower; one that is declared behind is none.
    assert_eq!(refusal(&[volts(0, 9, 0x14), volts(0, 3, 0x15)]), (13, 16));
    let among = [zone(3, 0), volts(0, 9, 0x14), volts(0, 4, 0x15), zone(9, 0)];
    assert_eq!(refusal(&among), (13, 57));
    // A string that a zone names, and that a sensor names, whichever comes first.
    assert_eq!(refusal(&[zone(1, 9), volts(8, 1, 0x14)]), (14, 16));
    assert_eq!(refusal(&[volts(9, 1, 0x14), zone(1, 8)]), (14, 16));
    // Pins a b b a: the third. A lamp before the bus that shares its pin: the bus.
    let [a, b] = [0x14, 0x15];
    assert_eq!(refusal(&[zone(1, 0), lamps(a, b), lamps(b, a)]), (15, 60));
    let bus = raw::digital(1, 0, 0x40);
    assert_eq!(refusal(&[zone(1, 0), lamps(0x04, 0xFF), bus]), (15, 60));
}

/// How the bytes so far were cut does not matter to what comes.
#[test]
fn states_of_the_same_bytes_go_on_alike() {
    let mut random = Random::new(43);
    for at in 0..300 {
        let settings = Settings::ALL[at % 4];
        let table = generator::any(&mut random, settings);
        let (front, back) = table.split_at(random.below(table.len() + 1));
        let verdict = whole(&table, settings);
        for size in [1, 7, 64, 5_000] {
            let pieces = front.chunks(size).chain(back.chunks(3));
            assert_eq!(of_pieces(settings, pieces), verdict);
        }
    }
}
