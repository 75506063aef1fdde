//! The ways in which a table is cut.

use super::step::Step;
use second::random::Random;

/// As the controller sends it.
const REPORT: usize = 64;
/// Of more bytes than these only one table in eight comes in single bytes, for the time that it takes.
const SHORT: usize = 300;

/// In reports of 64, in single bytes, and in pieces of chance, some of them empty; after each end come later calls, and
/// then the next start, over what the state holds or over other bytes.
pub fn of_table(table: &[u8], random: &mut Random) -> Vec<Step> {
    let mut steps = Vec::new();
    let mut sizes = vec![REPORT];
    if table.len() <= SHORT || random.below(8) == 0 {
        sizes.push(1);
    }
    for size in sizes {
        let reports = [Step::Reports { from: 0, size }];
        reception(table, &reports, random, &mut steps);
    }
    let pieces = of_chance(table.len(), random);
    reception(table, &pieces, random, &mut steps);
    steps
}

fn reception(table: &[u8], pieces: &[Step], random: &mut Random, to: &mut Vec<Step>) {
    let before = random.chance(50).then(|| random.byte());
    to.push(Step::Start(before));
    to.extend_from_slice(pieces);
    to.push(Step::End);
    let from = random.below(table.len() + 1);
    let length = random.below(table.len() - from + 1);
    let late = [
        Step::Piece { from, length: 0 },
        Step::Piece { from, length },
        Step::End,
    ];
    to.push(*random.pick(&late));
    to.push(*random.pick(&late));
}

/// Pieces of 0 bytes to a bound that is drawn once; a small one only for few bytes.
fn of_chance(length: usize, random: &mut Random) -> Vec<Step> {
    let bounds = match length {
        0..300 => &[1, 2, 3, 9, 40, 100][..],
        300..5_000 => &[20, 40, 64, 100, 500],
        _ => &[100, 1_000, 5_000],
    };
    let most = *random.pick(bounds);
    let mut steps = Vec::new();
    let mut from = 0;
    while from < length {
        let some = random.below(most + 1).min(length - from);
        steps.push(Step::Piece { from, length: some });
        from += some;
    }
    steps
}

/// Every cut into two pieces, those with an empty one too; now and then with a piece of no bytes between them.
pub fn in_two(length: usize) -> Vec<Step> {
    let mut steps = Vec::with_capacity(4 * length + 8);
    for cut in 0..=length {
        let empty = (cut % 5 == 0).then_some(Step::Piece { from: 0, length: 0 });
        steps.push(Step::Start(None));
        steps.push(Step::Piece {
            from: 0,
            length: cut,
        });
        steps.extend(empty);
        steps.push(Step::Piece {
            from: cut,
            length: length - cut,
        });
        steps.push(Step::End);
    }
    steps
}

/// 16 bytes, and 2^32 more that are counted and not read: the first 2^16 of all, again and again.
pub fn far_too_many() -> Vec<Step> {
    let table = Step::Piece {
        from: 0,
        length: 16,
    };
    let more = Step::Again {
        length: 1 << 16,
        times: 1 << 16,
    };
    vec![Step::Start(Some(0)), table, more, Step::End, Step::End]
}
