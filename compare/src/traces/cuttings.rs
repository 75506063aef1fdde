//! The ways in which a trace is cut.

use super::step::Step;
use second::generator::pieces;
use second::random::Random;
use second::trace::PIECE;

/// As much as one piece takes, and a size that is more.
const WHOLE: [usize; 2] = [PIECE, 2 * PIECE];
/// Longer traces come in single bytes only now and then, for the time that it takes.
const SHORT: usize = 400;

/// Whole, in pieces of chance, and in single bytes; each time from a start, over what the state holds or over other bytes, to an end,
/// and now and then with an end before, which changes nothing.
pub fn of_trace(trace: &[u8], random: &mut Random) -> Vec<Step> {
    let mut steps = Vec::new();
    let size = *random.pick(&WHOLE);
    run(&[Step::Reports { from: 0, size }], random, &mut steps);
    run(&of_chance(trace.len(), random), random, &mut steps);
    if trace.len() <= SHORT || random.below(8) == 0 {
        let size = random.between(1, 2);
        run(&[Step::Reports { from: 0, size }], random, &mut steps);
    }
    steps
}

fn run(pieces: &[Step], random: &mut Random, to: &mut Vec<Step>) {
    to.push(start(random));
    let early = random.below(2 * pieces.len() + 2);
    for (at, piece) in pieces.iter().enumerate() {
        to.push(*piece);
        if at == early {
            to.push(Step::End);
        }
    }
    to.push(Step::End);
}

pub fn start(random: &mut Random) -> Step {
    Step::Start(random.chance(50).then(|| random.byte()))
}

/// A piece that is too long is taken up to its 2,048th byte, and the next begins there.
fn of_chance(length: usize, random: &mut Random) -> Vec<Step> {
    let mut steps = Vec::new();
    let mut from = 0;
    for length in pieces(random, length) {
        steps.push(Step::Piece { from, length });
        from += length.min(PIECE);
    }
    steps
}
