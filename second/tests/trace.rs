//! Traces: what each line prints, what refuses it, and the tallies at the end, in one piece and in many.


use crate::common::{with, zoned};
use second::generator::{self, raw};
use second::random::Random;
use second::trace::{output, Trace, PIECE, TEXT};
use second::{plain, reading, Chip, Reading, Refusal, Settings};

/// The zone, then 1 current 0 to 300 deciamps, 2 voltage 0 to 140 decivolts, 3 our own thermistor, 4 a fan of two pulses, 5 a pump
/// without a tachometer, 6 a string, 7 a water level, 8 a digital sensor.
fn bench() -> Vec<u8> {
    zoned(&[
        raw::current(1, 0x14),
        raw::voltage(1, 0x15),
        raw::analogue(1, 0x16),
        raw::fan(1, 0x05, 0x06),
        raw::pump(1, 0x11, 0xFF),
        raw::text(1, &[0x41, 0]),
        raw::water(1, 0x17),
        raw::digital(1, 0, 0x40),
    ])
}

/// The tallies of a table of which no line has come.
fn no_tallies(elements: usize) -> String {
    let line = |k: usize| format!("{k}\t0\t0\t0\t0\t0\n");
    (0..elements).map(line).collect()
}

/// The output in pieces of these lengths, of which each takes 2,048 bytes at most. The bytes behind each text stay.
fn in_pieces(table: &[u8], trace: &[u8], lengths: impl IntoIterator<Item = usize>) -> Vec<u8> {
    let mut under_way = Trace::start(table, Chip::F320).unwrap();
    let (mut output, mut rest, mut out) = (Vec::new(), trace, Box::new([0xA5; TEXT]));
    let mut keep = |length: usize, out: &mut [u8; TEXT]| {
        output.extend_from_slice(&out[..length]);
        assert!(out[length..].iter().all(|&byte| byte == 0xA5));
        out[..length].fill(0xA5);
    };
    for length in lengths {
        let piece = &rest[..length.min(rest.len())];
        let length = under_way.piece(piece, &mut out);
        keep(length, &mut out);
        rest = &rest[piece.len().min(PIECE)..];
    }
    assert!(rest.is_empty());
    let before = under_way.clone();
    let length = under_way.end(&mut out);
    assert!(under_way == before);
    keep(length, &mut out);
    output
}

/// Both forms print this, the one for speed however the trace is cut.
#[track_caller]
fn prints(table: &[u8], trace: &[u8], wanted: &str) {
    for chip in Chip::BOTH {
        let fast = output(table, trace, chip).unwrap();
        assert_eq!(String::from_utf8_lossy(&fast), wanted);
        assert_eq!(plain::trace(table, trace, chip).unwrap(), fast);
    }
    let single = in_pieces(table, trace, std::iter::repeat_n(1, trace.len()));
    assert_eq!(String::from_utf8_lossy(&single), wanted);
    for cut in 0..=trace.len().min(60) {
        let two = in_pieces(table, trace, [cut].into_iter().chain(whole(trace)));
        assert_eq!(String::from_utf8_lossy(&two), wanted);
    }
}

/// As long as there are bytes.
fn whole(trace: &[u8]) -> impl Iterator<Item = usize> {
    std::iter::repeat_n(2 * PIECE, trace.len() / PIECE + 1)
}

/// What the bench prints of a trace, its tallies aside, which stay at 0.
#[track_caller]
fn refuses(trace: &[u8], lines: &str) {
    prints(&bench(), trace, &format!("{lines}{}", no_tallies(9)));
}

/// What one element prints of some counts; the tallies are not looked at. A count alone has the same answer.
#[track_caller]
fn converts(element: Vec<u8>, counts: &[(u64, &str)]) {
    let table = zoned(&[element]);
    for &(count, wanted) in counts {
        let trace = format!("0\t1\t{count}\n");
        let text = output(&table, trace.as_bytes(), Chip::F320).unwrap();
        let text = String::from_utf8(text).unwrap();
        assert_eq!(text.lines().next(), Some(wanted), "{count}");
        let slow = plain::trace(&table, trace.as_bytes(), Chip::F321).unwrap();
        assert_eq!(text.as_bytes(), slow);
        let alone = match reading(&table, 1, count, Chip::F320) {
            Ok(Reading::Value(value)) => value.to_string(),
            Ok(Reading::Under) => "under 0".into(),
            Ok(Reading::Over) => "over 100".into(),
            Err(Refusal { number, place }) => format!("R\t{number}\t{}", place + 1),
        };
        assert_eq!(alone, wanted, "{count}");
    }
}

/// A thermistor with these counts at 0, 25, 50, 75 and 100 degrees.
fn calibrated(points: [u16; 5]) -> Vec<u8> {
    let mut element = raw::analogue(1, 0x16);
    let bytes: Vec<u8> = points.into_iter().flat_map(u16::to_le_bytes).collect();
    element[10..].copy_from_slice(&bytes);
    element
}

fn turning(ppr: u8) -> Vec<u8> {
    with(&[(10, ppr)], raw::fan(1, 0x05, 0x06))
}

fn current(minimum: u16, maximum: u16) -> Vec<u8> {
    let [a, b] = minimum.to_le_bytes();
    let [c, d] = maximum.to_le_bytes();
    with(&[(10, a), (11, b), (12, c), (13, d)], raw::current(1, 0x14))
}

fn voltage(minimum: u8, maximum: u8) -> Vec<u8> {
    with(&[(9, maximum), (10, minimum)], raw::voltage(1, 0x14))
}

/// A line of each kind of element, and the tallies that come of it.
#[test]
fn one_line_each() {
    let trace = b"0\t1\t512\n1\t2\t511\n2\t3\t600\n3\t3\t851\n4\t3\t199\n5\t4\t65535\n\
        6\t5\t0\n7\t6\t0\n8\t7\t0\n9\t8\t0\n10\t0\t0\n11\t9\t0\n";
    let lines = "150\n70\n375\nunder 0\nover 100\n1966050\n\
        R\t18\t7\nR\t18\t8\nR\t18\t9\nR\t18\t10\nR\t18\t11\nR\t17\t12\n";
    let tallies = "0\t0\t0\t0\t0\t0\n1\t150\t150\t1\t0\t0\n2\t70\t70\t1\t0\t0\n3\t375\t375\t1\t1\t1\n4\t1966050\t1966050\t1\t0\t0\n\
        5\t0\t0\t0\t0\t0\n6\t0\t0\t0\t0\t0\n7\t0\t0\t0\t0\t0\n8\t0\t0\t0\t0\t0\n";
    prints(&bench(), trace, &format!("{lines}{tallies}"));
}

#[test]
fn an_empty_trace_has_no_line() {
    refuses(b"", "");
    prints(&raw::TABLE_A, b"", "");
    refuses(b"\n", "R\t19\t1\n");
    refuses(b"\n\n", "R\t19\t1\nR\t19\t2\n");
    prints(&raw::TABLE_A, b"0\t0\t0\n", "R\t17\t1\n");
}

#[test]
fn a_last_line_without_a_line_feed_is_a_line() {
    let tallies = "0\t0\t0\t0\t0\t0\n1\t300\t300\t1\t0\t0\n";
    let table = zoned(&[raw::current(1, 0x14)]);
    prints(&table, b"0\t1\t1023", &format!("300\n{tallies}"));
    prints(&table, b"0\t1\t1023\n", &format!("300\n{tallies}"));
    prints(
        &table,
        b"0\t1\t1023\n0",
        &format!("300\nR\t19\t2\n{tallies}"),
    );
    prints(
        &table,
        b"0\t1\t1023\n\t",
        &format!("300\nR\t19\t2\n{tallies}"),
    );
    prints(
        &table,
        b"0\t1\t1023\n\n",
        &format!("300\nR\t19\t2\n{tallies}"),
    );
}

/// 1 to 9 digits, leading zeros good, no sign, space or CR, exactly two tabs.
#[test]
fn malformed_lines() {
    for line in [
        &b""[..],
        b"\t",
        b"\t\t",
        b"0",
        b"0\t1",
        b"0\t1\t",
        b"\t1\t0",
        b"0\t\t0",
        b"0\t1\t0\t",
        b"0\t1\t0\t0",
        b"0\t\t1\t0",
        b"0 1 0",
        b"0\t1 \t0",
        b" 0\t1\t0",
        b"0\t1\t 0",
        b"0\t1\t0 ",
        b"0\t1\t0\r",
        b"\r",
        b"+0\t1\t0",
        b"0\t+1\t0",
        b"0\t1\t-0",
        b"0\t1\t0.0",
        b"0\t1\t0x0",
        b"0\t1\tA",
        b"0\t1\t/",
        b"0\t1\t:",
        b"0\t1\t\0",
        b"0\t1\t\xB2",
        b"0000000000\t1\t0",
        b"0\t0000000001\t0",
        b"0\t1\t0000000000",
        b"0\t1\t1000000000",
        b"0\t4294967297\t0",
        b"18446744073709551616\t1\t0",
    ] {
        let trace = [line, b"\n"].concat();
        refuses(&trace, "R\t19\t1\n");
        if !line.is_empty() {
            refuses(line, "R\t19\t1\n");
        }
    }
    let good = b"000000000\t000000001\t000001023\n";
    let text = output(&bench(), good, Chip::F320).unwrap();
    assert!(text.starts_with(b"300\n"));
}

#[test]
fn the_day_has_86400_seconds() {
    let table = zoned(&[raw::current(1, 0x14)]);
    let trace = b"86399\t1\t0\n86400\t1\t0\n000086399\t1\t1023\n999999999\t1\t0\n";
    let lines = "0\nR\t19\t2\n300\nR\t19\t4\n0\t0\t0\t0\t0\t0\n1\t0\t300\t2\t0\t0\n";
    prints(&table, trace, lines);
    // The clock may go back.
    let trace = b"5\t1\t1023\n4\t1\t0\n4\t1\t0\n";
    prints(
        &table,
        trace,
        "300\n0\n0\n0\t0\t0\t0\t0\t0\n1\t0\t300\t3\t0\t0\n",
    );
}

/// 19 for form and second, then 17, then what the element says.
#[test]
fn the_order_at_a_line() {
    refuses(b"86400\t9\t0\n", "R\t19\t1\n");
    refuses(b"86400\t6\t1024\n", "R\t19\t1\n");
    refuses(b"0\t9\t0\r\n", "R\t19\t1\n");
    refuses(b"0\t9\t1024\n", "R\t17\t1\n");
    // 65,536: at a fan, at a pump of PPR 0, past the last, at a sensor, at a string, at a zone.
    refuses(b"0\t4\t65536\n", "R\t19\t1\n");
    refuses(b"0\t5\t65536\n", "R\t19\t1\n");
    refuses(b"0\t5\t65535\n", "R\t18\t1\n");
    refuses(b"0\t9\t65536\n", "R\t17\t1\n");
    for k in [1, 2, 3, 6, 7, 8, 0] {
        refuses(format!("0\t{k}\t65536\n").as_bytes(), "R\t18\t1\n");
        refuses(format!("0\t{k}\t1024\n").as_bytes(), "R\t18\t1\n");
        refuses(format!("0\t{k}\t999999999\n").as_bytes(), "R\t18\t1\n");
    }
    refuses(b"0\t4\t999999999\n", "R\t19\t1\n");
    refuses(b"0\t999999999\t0\n", "R\t17\t1\n");
    refuses(b"0\t256\t0\n", "R\t17\t1\n");
}

/// Line 1,000,000 is read, later ones are 19, and the tallies still come.
#[test]
fn lines_past_a_million() {
    let table = zoned(&[raw::current(1, 0x14)]);
    let mut trace = b"\n".repeat(999_999);
    trace.extend_from_slice(b"0\t1\t1023\n0\t1\t0\n0\t7\t0\n0\t1\t512");
    let text = output(&table, &trace, Chip::F320).unwrap();
    let end = "R\t19\t999999\n300\nR\t19\t1000001\nR\t19\t1000002\nR\t19\t1000003\n0\t0\t0\t0\t0\t0\n1\t300\t300\t1\t0\t0\n";
    assert!(text.ends_with(end.as_bytes()));
    assert!(text == plain::trace(&table, &trace, Chip::F320).unwrap());
    assert!(text == in_pieces(&table, &trace, whole(&trace)));
}

/// The table's own refusal alone; the ordinary rules, and the chip.
#[test]
fn a_refused_table_has_no_line() {
    let old = zoned(&[raw::digital(1, 2, 0x40)]);
    let four = zoned(&[raw::current(1, 0x24)]);
    for (table, chip, refusal) in [
        (&[][..], Chip::F320, Refusal::at(1, 0)),
        (&old, Chip::F320, Refusal::at(23, 46)),
        (&old, Chip::F321, Refusal::at(23, 46)),
        (&four, Chip::F321, Refusal::at(10, 46)),
    ] {
        assert_eq!(output(table, b"0\t1\t0\n", chip), Err(refusal));
        assert_eq!(plain::trace(table, b"0\t1\t0\n", chip), Err(refusal));
        assert_eq!(Trace::start(table, chip), Err(refusal));
        assert_eq!(reading(table, 9, 70_000, chip), Err(refusal));
    }
    assert_eq!(Trace::start(&four, Chip::F320).unwrap().elements(), 2);
    assert_eq!(reading(&four, 1, 1023, Chip::F320), Ok(Reading::Value(300)));
    assert_eq!(
        reading(&four, 2, u64::MAX, Chip::F320),
        Err(Refusal::at(17, 0))
    );
}

/// 1023 and not 1024; either end may be the greater.
#[test]
fn deciamps() {
    let rising = [
        (0, "0"),
        (1, "0"),
        (2, "1"),
        (512, "150"),
        (1022, "300"),
        (1023, "300"),
        (1024, "R\t18\t1"),
    ];
    converts(current(0, 300), &rising);
    // 65535 x 1 / 1023 = 64.06, x 511 = 32735.47, x 512 = 32799.53.
    let widest = [
        (0, "0"),
        (1, "64"),
        (511, "32735"),
        (512, "32800"),
        (1022, "65471"),
        (1023, "65535"),
    ];
    converts(current(0, 65_535), &widest);
    let falling = [
        (0, "65535"),
        (1, "65471"),
        (511, "32800"),
        (512, "32735"),
        (1022, "64"),
        (1023, "0"),
    ];
    converts(current(65_535, 0), &falling);
    // 1 - 1 x count / 1023: half of it lies between 511 and 512.
    converts(
        current(1, 0),
        &[(0, "1"), (511, "1"), (512, "0"), (1023, "0")],
    );
    converts(
        current(0, 1),
        &[(0, "0"), (511, "0"), (512, "1"), (1023, "1")],
    );
    converts(
        current(100, 97),
        &[
            (0, "100"),
            (170, "100"),
            (171, "99"),
            (511, "99"),
            (512, "98"),
            (1023, "97"),
        ],
    );
    converts(
        current(7, 7),
        &[(0, "7"), (600, "7"), (1023, "7"), (1024, "R\t18\t1")],
    );
}

/// From VMIN to VMAX, which stands first in the element.
#[test]
fn decivolts() {
    converts(
        voltage(0, 140),
        &[(0, "0"), (511, "70"), (1023, "140"), (1024, "R\t18\t1")],
    );
    converts(
        voltage(140, 0),
        &[(0, "140"), (511, "70"), (512, "70"), (1023, "0")],
    );
    converts(
        voltage(255, 1),
        &[(0, "255"), (1, "255"), (2, "255"), (3, "254"), (1023, "1")],
    );
}

#[test]
fn revolutions() {
    converts(
        turning(1),
        &[
            (0, "0"),
            (1, "60"),
            (1024, "61440"),
            (65_535, "3932100"),
            (65_536, "R\t19\t1"),
        ],
    );
    converts(turning(2), &[(1, "30"), (65_535, "1966050")]);
    converts(
        turning(7),
        &[(1, "8"), (6, "51"), (7, "60"), (65_535, "561728")],
    );
    converts(
        turning(255),
        &[
            (4, "0"),
            (5, "1"),
            (65_535, "15420"),
            (999_999_999, "R\t19\t1"),
        ],
    );
    converts(
        turning(0),
        &[(0, "R\t18\t1"), (65_535, "R\t18\t1"), (65_536, "R\t19\t1")],
    );
}

/// Our own thermistor, and the same turned round.
#[test]
fn tenths_of_a_degree() {
    let falling = [
        (1024, "R\t18\t1"),
        (1023, "under 0"),
        (851, "under 0"),
        (850, "0"),
        (849, "2"),
        (775, "125"),
        (701, "248"),
        (700, "250"),
        (699, "251"),
        (600, "375"),
        (500, "500"),
        (320, "750"),
        (319, "752"),
        (201, "998"),
        (200, "1000"),
        (199, "over 100"),
        (0, "over 100"),
        // Halves: 252.5, 257.5, 512.5, 762.5.
        (698, "253"),
        (694, "258"),
        (491, "513"),
        (314, "763"),
    ];
    converts(calibrated([850, 700, 500, 320, 200]), &falling);
    let rising: Vec<(u64, &str)> = falling[1..]
        .iter()
        .map(|&(count, wanted)| (1023 - count, wanted))
        .collect();
    converts(calibrated([173, 323, 523, 703, 823]), &rising);
}

/// The steepest points and the widest.
#[test]
fn tenths_at_the_edges() {
    converts(
        calibrated([0, 1, 2, 3, 4]),
        &[(0, "0"), (1, "250"), (4, "1000"), (5, "over 100")],
    );
    converts(
        calibrated([1023, 1022, 1021, 1020, 1019]),
        &[
            (1018, "over 100"),
            (1019, "1000"),
            (1023, "0"),
            (1024, "R\t18\t1"),
        ],
    );
    // 250 / 1020: 0.245 a count.
    converts(
        calibrated([0, 1020, 1021, 1022, 1023]),
        &[(0, "0"), (2, "0"), (3, "1"), (1018, "250"), (1023, "1000")],
    );
    // 250 / 500: every odd count is a half, which goes to the hotter side.
    converts(
        calibrated([100, 600, 601, 602, 603]),
        &[(99, "under 0"), (101, "1"), (102, "1"), (103, "2")],
    );
    converts(
        calibrated([600, 100, 99, 98, 97]),
        &[(601, "under 0"), (599, "1"), (598, "1"), (597, "2")],
    );
}

/// Strictly rising or falling over all five points, whatever interval the count is in.
#[test]
fn calibrations_without_a_conversion() {
    for points in [
        [0, 0, 0, 0, 0],
        [1, 2, 3, 4, 4],
        [1, 1, 2, 3, 4],
        [850, 700, 500, 320, 320],
        [850, 850, 500, 320, 200],
        [850, 700, 500, 320, 321],
        [200, 320, 500, 700, 650],
        [850, 700, 850, 320, 200],
    ] {
        for count in [0, 1, 199, 500, 850, 1023, 1024] {
            converts(calibrated(points), &[(count, "R\t18\t1")]);
        }
    }
}

/// The first reading sets least and greatest; 0 is a reading; under 0 and over 100 have their own tallies; a refused line changes none.
#[test]
fn tallies() {
    let table = zoned(&[raw::analogue(1, 0x16)]);
    let tally = |trace: &str, wanted: &str| {
        let text = output(&table, trace.as_bytes(), Chip::F320).unwrap();
        let text = String::from_utf8(text).unwrap();
        assert_eq!(text.lines().last(), Some(wanted), "{trace}");
        let slow = plain::trace(&table, trace.as_bytes(), Chip::F320).unwrap();
        assert_eq!(slow, text.as_bytes());
    };
    tally("", "1\t0\t0\t0\t0\t0");
    tally("0\t1\t700\n", "1\t250\t250\t1\t0\t0");
    tally("0\t1\t700\n0\t1\t500\n", "1\t250\t500\t2\t0\t0");
    tally("0\t1\t500\n0\t1\t700\n", "1\t250\t500\t2\t0\t0");
    tally("0\t1\t850\n", "1\t0\t0\t1\t0\t0");
    tally("0\t1\t850\n0\t1\t700\n", "1\t0\t250\t2\t0\t0");
    tally("0\t1\t700\n0\t1\t850\n0\t1\t700\n", "1\t0\t250\t3\t0\t0");
    tally("0\t1\t851\n0\t1\t851\n", "1\t0\t0\t0\t2\t0");
    tally("0\t1\t199\n", "1\t0\t0\t0\t0\t1");
    tally("0\t1\t851\n0\t1\t700\n0\t1\t199\n", "1\t250\t250\t1\t1\t1");
    tally(
        "0\t1\t700\n0\t1\t1024\n0\t1\t851 \n86400\t1\t199\n",
        "1\t250\t250\t1\t0\t0",
    );
}

/// Both forms on traces of chance, for tables of every sort, in pieces of chance.
#[test]
fn both_forms_agree() {
    let mut random = Random::new(314);
    for at in 0..4_000 {
        let chip = Chip::BOTH[at % 2];
        let table = match at % 3 {
            0 => generator::mixed(&mut random, Settings::from(chip)),
            _ => generator::valid(&mut random, Settings::from(chip)),
        };
        let trace = generator::trace(&mut random, &table, 1 + at % 60);
        let wanted = plain::trace(&table, &trace, chip);
        assert_eq!(output(&table, &trace, chip), wanted);
        if chip == Chip::F320 {
            let lengths = generator::pieces(&mut random, trace.len());
            assert_eq!(in_pieces(&table, &trace, lengths), wanted.unwrap());
        }
    }
}

/// Every count over calibrations of chance, rising and falling, and over ranges of chance.
#[test]
fn both_forms_convert_alike() {
    let mut random = Random::new(1023);
    for at in 0..300 {
        let mut points: Vec<u16> = (0..1024).collect();
        random.shuffle(&mut points);
        points.truncate(5);
        points.sort_unstable();
        if at % 2 == 1 {
            points.reverse();
        }
        let [low, high] = [0, 1].map(|_| random.word() as u16);
        let elements = [
            calibrated(points.try_into().unwrap()),
            current(low, high),
            with(&[(8, 0x15)], voltage(low as u8, high as u8)),
            turning(1 + (at % 255) as u8),
        ];
        let table = zoned(&elements);
        let lines = (0..1024).flat_map(|count| (1..=4).map(move |k| format!("0\t{k}\t{count}\n")));
        let trace = lines.collect::<String>().into_bytes();
        let fast = output(&table, &trace, Chip::F320).unwrap();
        assert!(!fast.contains(&b'R'));
        assert!(fast == plain::trace(&table, &trace, Chip::F320).unwrap());
    }
}
