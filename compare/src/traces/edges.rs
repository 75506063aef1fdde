//! Where conversions and lines have their edges: every count over many calibrations and ranges, every PPR, the line after the millionth.

use super::asking::What;
use super::step::Step;
use second::element::id;
use second::generator::{raw, touches_the_four};
use second::random::Random;
use second::trace::PIECE;
use second::Chip;
use std::rc::Rc;

/// One run, or one list of counts, of the gate.
pub struct Edge {
    pub name: &'static str,
    pub chip: Chip,
    pub table: Rc<[u8]>,
    pub what: What,
}

const SEED: u64 = 1023;
/// Sensors of one table: both chips have nine pins for them.
const SENSORS: usize = 9;
const PINS: [u8; SENSORS] = [0x14, 0x15, 0x16, 0x17, 0x20, 0x21, 0x22, 0x23, 0x30];
/// Tables of calibrations, of currents and of voltages.
const TABLES: usize = 34;
const WILD_STATES: u32 = 200;

/// Our own thermistor, and the same turned round.
const OURS: [u16; 5] = [850, 700, 500, 320, 200];
const TURNED: [u16; 5] = [173, 323, 523, 703, 823];

pub fn all() -> Vec<Edge> {
    let mut random = Random::new(SEED);
    let mut edges = every_count(&mut random);
    edges.extend(our_own());
    edges.extend(every_ppr(&mut random));
    edges.push(past_a_million());
    edges.extend(wild_states(&mut random));
    edges
}

fn edge(name: &'static str, at: usize, elements: &[Vec<u8>], what: What) -> Edge {
    let table = raw::table(elements);
    debug_assert!(!touches_the_four(&table));
    Edge {
        name,
        chip: Chip::BOTH[at % 2],
        table: table.into(),
        what,
    }
}

/// The whole trace, and an end.
fn run(trace: String, size: usize) -> What {
    What::Run {
        trace: trace.into_bytes().into(),
        steps: vec![
            Step::Start(Some(0)),
            Step::Reports { from: 0, size },
            Step::End,
        ],
    }
}

/// All counts from 0 to 1023, and 1024, at each of the elements behind the zone.
fn counts(elements: usize) -> String {
    let line = |count: usize| {
        let elements = 1..=elements;
        elements.map(move |k| format!("{}\t{k}\t{count}\n", 80 * count))
    };
    (0..=1024).flat_map(line).collect()
}

pub fn calibrated(pin: u8, points: [u16; 5]) -> Vec<u8> {
    let mut element = raw::analogue(1, pin);
    let bytes: Vec<u8> = points.into_iter().flat_map(u16::to_le_bytes).collect();
    element[10..].copy_from_slice(&bytes);
    element
}

/// Rising or falling points of chance, near to each other or far apart; those of a width whose halves are met, now and then.
fn some_points(random: &mut Random, at: usize) -> [u16; 5] {
    let widths: [u16; 6] = [4, 20, 100, 500, 12, 180];
    let mut points = match at % 4 {
        0 => {
            let width = *random.pick(&widths) as usize;
            let first = random.below(1024 - (width + 3).min(1023));
            [0, width, width + 1, width + 2, width + 3].map(|more| (first + more) as u16)
        }
        1 => {
            let width = random.between(1, 255);
            let first = random.below(1024 - 4 * width);
            [0, 1, 2, 3, 4].map(|times| (first + times * width) as u16)
        }
        _ => {
            let mut all: Vec<u16> = (0..1024).collect();
            random.shuffle(&mut all);
            all.truncate(5);
            all.sort_unstable();
            [all[0], all[1], all[2], all[3], all[4]]
        }
    };
    if random.chance(50) {
        points.reverse();
    }
    points
}

/// Two numbers of chance, or next to each other, or at the ends.
fn some_range(random: &mut Random) -> [u16; 2] {
    let first = random.word() as u16;
    let second = match random.below(4) {
        0 => first.wrapping_add(random.below(5) as u16),
        1 => *random.pick(&[0, 1, 65_535]),
        2 => first ^ random.below(1024) as u16,
        _ => random.word() as u16,
    };
    [first, second]
}

/// The sensor of one kind on a pin.
fn some_sensor(random: &mut Random, kind: u8, pin: u8, at: usize) -> Vec<u8> {
    let [first, second] = some_range(random);
    match kind {
        id::ANALOGUE_SENSOR => calibrated(pin, some_points(random, at)),
        id::CURRENT => {
            let mut element = raw::current(1, pin);
            element[10..12].copy_from_slice(&first.to_le_bytes());
            element[12..14].copy_from_slice(&second.to_le_bytes());
            element
        }
        _ => {
            let mut element = raw::voltage(1, pin);
            [element[9], element[10]] = [first as u8, second as u8];
            element
        }
    }
}

fn every_count(random: &mut Random) -> Vec<Edge> {
    let mut edges = Vec::new();
    for kind in [id::ANALOGUE_SENSOR, id::CURRENT, id::VOLTAGE] {
        for at in 0..TABLES {
            let mut elements = vec![raw::zone(1, 0)];
            for (more, pin) in PINS.into_iter().enumerate() {
                elements.push(some_sensor(random, kind, pin, SENSORS * at + more));
            }
            let what = run(counts(SENSORS), PIECE);
            edges.push(edge("every count", at, &elements, what));
        }
    }
    edges
}

/// All counts one by one, and in a trace that is cut anywhere; and those of calibrations that are off by one in a point.
fn our_own() -> Vec<Edge> {
    let mut all = vec![OURS, TURNED];
    for at in 0..5 {
        for off in [-1, 1] {
            let mut points = OURS;
            points[at] = points[at].wrapping_add_signed(off);
            all.push(points);
        }
    }
    let mut edges = Vec::new();
    for (at, points) in all.into_iter().enumerate() {
        let elements = [raw::zone(1, 0), calibrated(0x14, points)];
        let counts: Vec<(u64, u64)> = (0..=1024).map(|count| (1, count)).collect();
        edges.push(edge("our thermistor", at, &elements, What::Counts(counts)));
        for size in [1, 7, 2 * PIECE] {
            let what = run(self::counts(1), size);
            edges.push(edge("our thermistor", at + size, &elements, what));
        }
    }
    edges
}

fn every_ppr(random: &mut Random) -> Vec<Edge> {
    let mut edges = Vec::new();
    for ppr in 0..=255 {
        let (pwm, tachometer) = (0x05, 0x06);
        let mut turning = match ppr % 2 {
            0 => raw::fan(1, pwm, tachometer),
            _ => raw::pump(1, pwm, tachometer),
        };
        turning[10] = ppr;
        let ends = [0, 1, 2, 65_534, 65_535, 65_536, 131_071, 999_999_999];
        let around = (1..20).map(|times| times * usize::from(ppr));
        let mut pulses: Vec<usize> = ends.into_iter().chain(around).collect();
        pulses.extend((0..60).map(|_| random.below(65_536)));
        let line = |pulses: &usize| format!("0\t1\t{pulses}\n");
        let what = run(pulses.iter().map(line).collect(), PIECE);
        let elements = [raw::zone(1, 0), turning];
        edges.push(edge("every PPR", ppr.into(), &elements, what));
    }
    edges
}

/// 999,996 empty lines, and then eight that are read or not: the last four of them are too many.
fn past_a_million() -> Edge {
    let mut trace = "\n".repeat(PIECE);
    for line in 0..8 {
        trace += &format!("{line}\t1\t{}\n", 100 * line);
    }
    trace += "0\t1\t1023";
    let elements = [raw::zone(1, 0), raw::current(1, 0x14)];
    let (times, rest) = (999_996 / PIECE, 999_996 % PIECE);
    let steps = vec![
        Step::Start(None),
        Step::Again {
            length: PIECE,
            times,
        },
        Step::Again {
            length: rest,
            times: 1,
        },
        Step::Reports {
            from: PIECE,
            size: 7,
        },
        Step::End,
    ];
    let what = What::Run {
        trace: trace.into_bytes().into(),
        steps,
    };
    edge("the millionth line", 0, &elements, what)
}

fn wild_states(random: &mut Random) -> Vec<Edge> {
    let mut edges = Vec::new();
    for seed in 0..WILD_STATES {
        let elements = [raw::zone(1, 0), raw::analogue(1, 0x14)];
        let table = raw::table(&elements);
        let trace = second::generator::trace(random, &table, 20);
        let what = What::Run {
            trace: trace.into(),
            steps: vec![Step::Wild {
                seed,
                size: 1 + seed as usize % 100,
            }],
        };
        edges.push(edge("a state that no start gave", 0, &elements, what));
    }
    edges
}
