//! The second program in the driver's place: takes the driver's requests and gives its own answers. Built with an
//! altered second program it is what `careless` holds against the right one.

use crate::call::Call;
use crate::fans::{self, Zones};
use crate::fields::Reading;
use crate::hex::Way;
use crate::outcome::Outcome;
use crate::pairs::{self, Pair};
use crate::question::Origin;
use crate::receiving::{Conversation, Step};
use crate::removals::{self, Removal};
use crate::salvage::{self, Salvaging};
use crate::sheets::{Asking, SheetCall};
use crate::traces::{self, Traced};
use crate::writer::{Does, WriterCall};
use std::io::{self, BufRead, BufReader, BufWriter, Read, Write};

/// Answers until the requests end or nobody listens any more. What is answered goes out before it waits for more.
pub fn serve(from: impl Read, to: impl Write) -> Result<bool, String> {
    match answer_all(BufReader::new(from), BufWriter::new(to)) {
        Err(why) if why.kind() != io::ErrorKind::BrokenPipe => {
            Err(format!("a request or its answer was lost: {why}"))
        }
        _ => Ok(true),
    }
}

fn answer_all(mut from: BufReader<impl Read>, mut to: impl Write) -> io::Result<()> {
    loop {
        if from.buffer().is_empty() {
            to.flush()?;
            if from.fill_buf()?.is_empty() {
                return Ok(());
            }
        }
        let reply = answer(&mut from)?;
        to.write_all(&reply)?;
    }
}

/// The reply to one request. All begin with mode, length of the bytes that are lent, k and settings.
fn answer(from: &mut impl Read) -> io::Result<Vec<u8>> {
    let head = bytes(from, 21)?;
    let (mode, k, settings) = (head[0], number(&head[5..13]), number(&head[13..]));
    let lent = bytes(from, number(&head[1..5]) as usize)?;
    if let Some(call) = Call::of(mode, k) {
        return Ok(of_reader(call, &lent, settings));
    }
    if let Some(way) = Way::of(mode) {
        return Ok(of_moving(way, &lent, k as usize, settings));
    }
    match Does::of(mode, k as u8) {
        Some(does) => of_writer(does, k >> 8, settings, lent, from),
        None if mode == Zones::MODE => of_fans(k, settings, &lent, from),
        None if mode == Removal::MODE => of_removals(k, settings, &lent, from),
        None if mode == Asking::MODE => of_sheets(k, settings, &lent, from),
        None if mode == Conversation::MODE => of_steps(k, settings, &lent, from),
        None if mode == Pair::MODE => of_pair(k, settings, &lent, from),
        None if mode == Traced::TRACE => of_trace(k, settings, &lent, from),
        None if mode == Traced::COUNTS => of_counts(k, settings, &lent, from),
        None if mode == Salvaging::MODE => Ok(salvage::second(&lent, settings, k as usize).bytes()),
        None => of_readings(k, settings, &lent, from),
    }
}

/// A listing's text has its length before it.
fn of_reader(call: Call, table: &[u8], settings: u64) -> Vec<u8> {
    let Outcome { answer, buffer } = call.second(table, settings);
    let length = (buffer.len() as u64).to_le_bytes();
    match call {
        Call::List => [&answer.0.to_le_bytes(), &length, &buffer[..]].concat(),
        _ => answer.0.to_le_bytes().to_vec(),
    }
}

/// The whole buffer follows the answer.
fn of_moving(way: Way, lent: &[u8], room: usize, settings: u64) -> Vec<u8> {
    let Outcome { answer, buffer } = way.second(lent, room, settings);
    [&answer.0.to_le_bytes(), &buffer[..]].concat()
}

/// Numbers and part follow the buffer.
fn of_writer(
    does: Does,
    part_length: u64,
    settings: u64,
    buffer: Vec<u8>,
    from: &mut impl Read,
) -> io::Result<Vec<u8>> {
    let mut numbers = [0; 32];
    from.read_exact(&mut numbers)?;
    let part = bytes(from, part_length as usize)?;
    let call = WriterCall {
        does,
        settings,
        numbers,
        part,
        buffer,
    };
    let Outcome { answer, buffer } = call.second();
    Ok([&answer.0.to_le_bytes(), &buffer[..]].concat())
}

/// So many readings follow the bytes that they are of.
fn of_readings(
    count: u64,
    settings: u64,
    lent: &[u8],
    from: &mut impl Read,
) -> io::Result<Vec<u8>> {
    let mut replies = Vec::new();
    for _ in 0..count {
        let asked = bytes(from, Reading::LENGTH)?;
        let reading = Reading::of(asked[0], number(&asked[1..9]), number(&asked[9..]));
        let reading = reading.ok_or(io::ErrorKind::InvalidData)?;
        reading.second(lent, settings, &mut replies);
    }
    Ok(replies)
}

/// So many zones follow the table, a byte each.
fn of_fans(count: u64, settings: u64, table: &[u8], from: &mut impl Read) -> io::Result<Vec<u8>> {
    let zones = bytes(from, count as usize)?;
    let answers = fans::second(table, &zones, settings);
    Ok(answers.iter().flat_map(|one| one.0.to_le_bytes()).collect())
}

/// So many elements' numbers follow the table.
fn of_removals(
    count: u64,
    settings: u64,
    table: &[u8],
    from: &mut impl Read,
) -> io::Result<Vec<u8>> {
    let mut replies = Vec::new();
    for _ in 0..count {
        let k = number(&bytes(from, 8)?);
        let Outcome { answer, buffer } = removals::second(table, k, settings);
        replies.extend(answer.0.to_le_bytes());
        replies.extend(buffer);
    }
    Ok(replies)
}

/// So many calls on sheets follow the table.
fn of_sheets(count: u64, settings: u64, table: &[u8], from: &mut impl Read) -> io::Result<Vec<u8>> {
    let mut replies = Vec::new();
    for _ in 0..count {
        let call = SheetCall::of(&bytes(from, SheetCall::LENGTH)?);
        let Outcome { answer, buffer } = call
            .ok_or(io::ErrorKind::InvalidData)?
            .second(table, settings);
        replies.extend([&answer.0.to_le_bytes(), &buffer[..]].concat());
    }
    Ok(replies)
}

/// So many steps follow the bytes that are received.
fn of_steps(count: u64, settings: u64, lent: &[u8], from: &mut impl Read) -> io::Result<Vec<u8>> {
    let mut steps = Vec::new();
    for _ in 0..count {
        let step = Step::of(&bytes(from, Step::LENGTH)?);
        steps.push(step.ok_or(io::ErrorKind::InvalidData)?);
    }
    let conversation = Conversation {
        origin: Origin::Known("as requested"),
        settings,
        bytes: lent.into(),
        steps,
    };
    let answers = conversation.second();
    Ok(answers.iter().flat_map(|one| one.0.to_le_bytes()).collect())
}

/// The second table follows the first.
fn of_pair(length: u64, settings: u64, one: &[u8], from: &mut impl Read) -> io::Result<Vec<u8>> {
    let two = bytes(from, length as usize)?;
    let Outcome { answer, buffer } = pairs::second(one, &two, settings);
    let length = (buffer.len() as u64).to_le_bytes();
    Ok([&answer.0.to_le_bytes(), &length, &buffer[..]].concat())
}

/// The trace follows the table, and then so many steps.
fn of_trace(k: u64, settings: u64, table: &[u8], from: &mut impl Read) -> io::Result<Vec<u8>> {
    let trace = bytes(from, k as u32 as usize)?;
    let mut steps = Vec::new();
    for _ in 0..k >> 32 {
        let step = traces::Step::of(&bytes(from, traces::Step::LENGTH)?);
        steps.push(step.ok_or(io::ErrorKind::InvalidData)?);
    }
    let mut replies = Vec::new();
    for Outcome { answer, buffer } in traces::of_steps(table, &trace, &steps, settings) {
        replies.extend(
            [answer.0, buffer.len() as u64]
                .map(u64::to_le_bytes)
                .concat(),
        );
        replies.extend(buffer);
    }
    Ok(replies)
}

/// So many elements and counts follow the table.
fn of_counts(count: u64, settings: u64, table: &[u8], from: &mut impl Read) -> io::Result<Vec<u8>> {
    let mut replies = Vec::new();
    for _ in 0..count {
        let asked = bytes(from, 16)?;
        let (k, count) = (number(&asked[..8]), number(&asked[8..]));
        let answer = traces::of_count(table, k, count, settings);
        replies.extend(answer.0.to_le_bytes());
    }
    Ok(replies)
}

fn bytes(from: &mut impl Read, count: usize) -> io::Result<Vec<u8>> {
    let mut bytes = vec![0; count];
    from.read_exact(&mut bytes)?;
    Ok(bytes)
}

/// Lowest byte first.
fn number(bytes: &[u8]) -> u64 {
    let low_last = bytes.iter().rev();
    low_last.fold(0, |high, &byte| high << 8 | u64::from(byte))
}

#[cfg(test)]
mod tests {
    use super::*;
    use crate::exchange::Asked;
    use crate::writer::Stream;
    use second::generator::any;
    use second::random::Random;
    use second::Settings;
    use std::rc::Rc;

    /// Two readings of a table in one request.
    fn readings(table: &[u8], requests: &mut Vec<u8>, wanted: &mut Vec<u8>) {
        let asked = [Reading::Describe, Reading::Label(0, 5)];
        requests.push(7);
        requests.extend((table.len() as u32).to_le_bytes());
        requests.extend([2u64, 3].into_iter().flat_map(u64::to_le_bytes));
        requests.extend(table);
        for reading in asked {
            reading.request(requests);
            reading.second(table, 3, wanted);
        }
    }

    /// Three zones of a table, and two elements to be taken out of it, in a request each.
    fn zones_and_removals(table: &Rc<[u8]>, requests: &mut Vec<u8>, wanted: &mut Vec<u8>) {
        let zones = Zones {
            origin: Origin::Known("any"),
            settings: 1,
            table: table.clone(),
            zones: vec![0, 1, 255],
        };
        zones.request(requests);
        wanted.extend(zones.second().iter().flat_map(|one| one.0.to_le_bytes()));
        let removal = Removal {
            origin: Origin::Known("any"),
            settings: 3,
            table: table.clone(),
            elements: vec![0, 200],
        };
        removal.request(requests);
        for Outcome { answer, buffer } in removal.second() {
            wanted.extend([&answer.0.to_le_bytes()[..], &buffer].concat());
        }
    }

    /// A table in pieces of every sort, an end and what comes after it, in one request.
    fn steps(table: &Rc<[u8]>, requests: &mut Vec<u8>, wanted: &mut Vec<u8>) {
        let length = table.len();
        let from = length / 2;
        let conversation = Conversation {
            origin: Origin::Known("any"),
            settings: 3,
            bytes: table.clone(),
            steps: vec![
                Step::Start(Some(7)),
                Step::Piece {
                    from: 0,
                    length: from,
                },
                Step::Reports { from, size: 3 },
                Step::End,
                Step::End,
                Step::Start(None),
                Step::Again { length, times: 1 },
                Step::End,
                Step::Wild { seed: 5, size: 64 },
            ],
        };
        conversation.request(requests);
        let answers = conversation.second();
        wanted.extend(answers.iter().flat_map(|one| one.0.to_le_bytes()));
    }

    /// A sheet made afresh, brought forward and as text, in one request.
    fn sheets(table: &[u8], requests: &mut Vec<u8>, wanted: &mut Vec<u8>) {
        let call = |which| {
            let numbers = (0..50).map(|at: u8| at.wrapping_mul(7));
            SheetCall::of(&[which].into_iter().chain(numbers).collect::<Vec<u8>>())
        };
        let asking = Asking {
            origin: Origin::Known("any"),
            settings: 2,
            table: table.into(),
            calls: [0, 1, 2].into_iter().filter_map(call).collect(),
        };
        asking.request(requests);
        for Outcome { answer, buffer } in asking.second() {
            wanted.extend([&answer.0.to_le_bytes()[..], &buffer].concat());
        }
    }

    /// A trace in steps of every sort, and two counts, in a request each.
    fn traced(table: &Rc<[u8]>, requests: &mut Vec<u8>, wanted: &mut Vec<u8>) {
        use crate::traces::{Step, What};
        let mut asking = Traced {
            origin: Origin::Known("any"),
            settings: 3,
            table: table.clone(),
            what: What::Run {
                trace: Rc::from(&b"0\t1\t2\n3\t0\t4"[..]),
                steps: vec![
                    Step::Start(None),
                    Step::Reports { from: 0, size: 3 },
                    Step::Piece { from: 2, length: 5 },
                    Step::Again {
                        length: 6,
                        times: 2,
                    },
                    Step::End,
                    Step::Wild { seed: 1, size: 1 },
                ],
            },
        };
        asking.request(requests);
        for Outcome { answer, buffer } in asking.second() {
            wanted.extend(
                [answer.0, buffer.len() as u64]
                    .map(u64::to_le_bytes)
                    .concat(),
            );
            wanted.extend(buffer);
        }
        asking.what = What::Counts(vec![(0, 5), (1, 70_000)]);
        asking.request(requests);
        for Outcome { answer, .. } in asking.second() {
            wanted.extend(answer.0.to_le_bytes());
        }
    }

    /// What can be saved of a table, with some room.
    fn salvages(table: &Rc<[u8]>, requests: &mut Vec<u8>, wanted: &mut Vec<u8>) {
        for room in [0, 40, table.len()] {
            let salvaging = Salvaging {
                origin: Origin::Known("any"),
                settings: 2,
                file: table.clone(),
                room,
            };
            salvaging.request(requests);
            wanted.extend(salvaging.second().bytes());
        }
    }

    /// Every request is taken in whole, and answered as the second program answers.
    #[test]
    fn requests_end_to_end_are_answered_one_by_one() {
        let (mut requests, mut wanted) = (Vec::new(), Vec::new());
        let mut random = Random::new(3);
        for write in Stream::new(3).take(200) {
            let table = any(&mut random, Settings::default());
            for call in [Call::Check, Call::List, Call::Element(1), Call::Part(0)] {
                call.request(&table, 1, &mut requests);
                wanted.extend(of_reader(call, &table, 1));
            }
            readings(&table, &mut requests, &mut wanted);
            let lent: Rc<[u8]> = table.clone().into();
            zones_and_removals(&lent, &mut requests, &mut wanted);
            steps(&lent, &mut requests, &mut wanted);
            salvages(&lent, &mut requests, &mut wanted);
            sheets(&table, &mut requests, &mut wanted);
            traced(&lent, &mut requests, &mut wanted);
            write.request(&mut requests);
            let Outcome { answer, buffer } = write.second();
            wanted.extend([&answer.0.to_le_bytes()[..], &buffer].concat());
        }
        let mut replies = Vec::new();
        answer_all(BufReader::new(&requests[..]), &mut replies).unwrap();
        assert!(replies == wanted);
    }
}
