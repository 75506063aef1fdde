//! Tables as Intel HEX and back: what is written, what is taken, and the first bad line of what is not.


use crate::common::{with, zoned};
use second::generator::raw::{self, TABLE_A};
use second::generator::{any, hex_text, targeted, valid};
use second::hex::{record, text, DATA, END, LONGEST_TEXT};
use second::random::Random;
use second::{hex, plain, unhex, Chip, Refusal, Rules, Settings, Verdict};

const A_LINE: &str = ":10000000011000020007000080FFFFFF0000000059";
const END_LINE: &str = ":00000001FF";

/// The text of a table in a buffer with three bytes more, which stay.
fn there(table: &[u8], chip: Chip) -> Result<Vec<u8>, Refusal> {
    let mut out = vec![0xA5; LONGEST_TEXT + 3];
    let answer = hex(table, chip, &mut out);
    let behind = *answer.as_ref().unwrap_or(&0);
    assert!(out[behind..].iter().all(|&byte| byte == 0xA5));
    out.truncate(behind);
    assert_eq!(plain::hex(table, chip), answer.map(|_| out.clone()));
    answer.map(|_| out)
}

/// The same of the table of a text.
fn back(text: &[u8], chip: Chip) -> Result<Vec<u8>, Refusal> {
    let mut out = vec![0xA5; text.len() + 3];
    let answer = unhex(text, chip, &mut out);
    let behind = *answer.as_ref().unwrap_or(&0);
    assert!(out[behind..].iter().all(|&byte| byte == 0xA5));
    out.truncate(behind);
    assert_eq!(plain::unhex(text, chip), answer.map(|_| out.clone()));
    answer.map(|_| out)
}

/// 21 with this line, on both chips, and in a buffer of no bytes.
#[track_caller]
fn bad(text: &[u8], line: usize) {
    refuses(text, 21, line);
}

#[track_caller]
fn refuses(text: &[u8], number: u8, place: usize) {
    let refusal = Refusal::at(number, place);
    for chip in Chip::BOTH {
        assert_eq!(back(text, chip), Err(refusal));
        assert_eq!(unhex(text, chip, &mut []), Err(refusal));
    }
}

/// These bytes come back, on both chips.
#[track_caller]
fn comes_back(text: &[u8], table: &[u8]) {
    for chip in Chip::BOTH {
        assert_eq!(
            back(text, chip),
            Ok(table.to_vec()),
            "{}",
            text.escape_ascii()
        );
    }
}

/// Lines as a text, each closed.
fn closed(lines: &[&str]) -> Vec<u8> {
    let closed = lines.iter().map(|line| format!("{line}\n"));
    closed.collect::<String>().into_bytes()
}

#[test]
fn table_a_as_document_02_writes_it() {
    let lines = closed(&[A_LINE, END_LINE]);
    for chip in Chip::BOTH {
        assert_eq!(there(&TABLE_A, chip), Ok(lines.clone()));
    }
    comes_back(&lines, &TABLE_A);
}

/// Records of 16 bytes from address 0, the last one shorter if need be.
#[test]
fn the_last_record_is_shorter_if_need_be() {
    for more in 0..40 {
        let table = zoned(&[raw::text(1, &vec![0; 2 * more])]);
        let text = String::from_utf8(there(&table, Chip::F320).unwrap()).unwrap();
        let lines: Vec<&str> = text.split_terminator('\n').collect();
        let (last, full) = (table.len() % 16, table.len() / 16);
        assert_eq!(lines.len(), table.len().div_ceil(16) + 1);
        assert!(text.ends_with(":00000001FF\n"));
        for (at, line) in lines[..full].iter().enumerate() {
            assert!(line.starts_with(&format!(":10{:04X}00", 16 * at)));
            assert_eq!(line.len(), 43);
        }
        if last > 0 {
            assert!(lines[full].starts_with(&format!(":{last:02X}{:04X}00", 16 * full)));
            assert_eq!(lines[full].len(), 11 + 2 * last);
        }
    }
}

/// The longest text, and the room for it.
#[test]
fn the_longest_table() {
    let table = raw::table(&[raw::text(1, &vec![0; 4_096 - 22])]);
    let text = there(&table, Chip::F320).unwrap();
    assert_eq!(text.len(), LONGEST_TEXT);
    comes_back(&text, &table);
}

/// Reserved places go along as they stand.
#[test]
fn raw_bytes_go_and_come_back() {
    let mut dirty = zoned(&[raw::current(1, 0x14)]);
    dirty[12..16].fill(0xA5);
    dirty[46 + 9] = 0x5A;
    for chip in Chip::BOTH {
        let text = there(&dirty, chip).unwrap();
        assert_eq!(back(&text, chip), Ok(dirty.clone()));
    }
}

/// Block mode: the archive's rules both ways.
#[test]
fn old_tables_move_too() {
    let table = zoned(&[raw::digital(1, 0xF2, 0x40)]);
    assert_eq!(second::check(&table, Chip::F320.into()).number(), 23);
    let lines = there(&table, Chip::F321).unwrap();
    comes_back(&lines, &table);
}

/// By the chip that is named.
#[test]
fn the_chip_is_the_callers() {
    let table = zoned(&[raw::current(1, 0x24)]);
    let text = there(&table, Chip::F320).unwrap();
    assert_eq!(back(&text, Chip::F320), Ok(table.clone()));
    let refusal = Refusal::at(10, 46);
    assert_eq!(there(&table, Chip::F321), Err(refusal));
    assert_eq!(back(&text, Chip::F321), Err(refusal));
}

/// Into HEX: the table's own, then 16, and never 21; a text that would be long fits no small buffer.
#[test]
fn room_for_the_text() {
    let table = zoned(&[raw::fan(1, 5, 6)]);
    let text = there(&table, Chip::F320).unwrap();
    assert_eq!(text.len(), 2 * 62 + 4 * 12 + 12);
    for room in 0..=text.len() {
        let mut out = vec![0xA5; room];
        let answer = hex(&table, Chip::F320, &mut out);
        if room == text.len() {
            assert_eq!((answer, out), (Ok(room), text.clone()));
            continue;
        }
        assert_eq!(answer, Err(Refusal::at(16, 0)));
        assert!(out.iter().all(|&byte| byte == 0xA5));
    }
    let refused = raw::table(&[raw::fan(1, 5, 6)]);
    assert_eq!(hex(&refused, Chip::F320, &mut []), Err(Refusal::at(13, 16)));
    assert_eq!(hex(&[], Chip::F320, &mut []), Err(Refusal::at(1, 0)));
    assert_eq!(
        hex(b":00000001FF\n", Chip::F320, &mut []),
        Err(Refusal::at(1, 0))
    );
    assert_eq!(there(&[0; 70_000], Chip::F320), Err(Refusal::at(2, 0)));
}

/// Coming back: 21, the table's own, 16.
#[test]
fn room_for_the_table() {
    let table = zoned(&[raw::fan(1, 5, 6)]);
    let lines = text(&table, 16);
    for room in 0..table.len() {
        let mut out = vec![0xA5; room];
        assert_eq!(unhex(&lines, Chip::F320, &mut out), Err(Refusal::at(16, 0)));
        assert!(out.iter().all(|&byte| byte == 0xA5));
    }
    let mut out = vec![0xA5; table.len()];
    assert_eq!(unhex(&lines, Chip::F320, &mut out), Ok(table.len()));
    assert_eq!(out, table);
    let refused = raw::table(&[raw::fan(1, 5, 6)]);
    refuses(&text(&refused, 16), 13, 16);
    let mut cut = text(&refused, 16);
    cut.pop();
    bad(&cut, 3);
}

/// The end record alone is a text of no bytes.
#[test]
fn the_end_record_alone() {
    refuses(&closed(&[END_LINE]), 1, 0);
}

#[test]
fn records_of_1_to_255_bytes() {
    let table = raw::table(&[raw::text(1, &vec![0x41; 500])]);
    for each in 1..=255 {
        comes_back(&text(&table, each), &table);
    }
    let longest = text(&table, 255);
    assert_eq!(longest.iter().position(|&byte| byte == b'\n'), Some(521));
    // Of different lengths in one text.
    let mut mixed = Vec::new();
    let mut at = 0;
    for each in (1..).step_by(7) {
        let end = table.len().min(at + each);
        mixed.extend(record(at as u16, DATA, &table[at..end]));
        at = end;
        if at == table.len() {
            break;
        }
    }
    mixed.extend(record(0, END, &[]));
    comes_back(&mixed, &table);
}

/// Each character of the text of table A, altered to every other byte: the first line is bad, or the second, or, where a
/// line feed now cuts one in two, the line that is cut. Only an altered line feed can run two lines into one.
#[test]
fn every_byte_altered_once() {
    let lines = closed(&[A_LINE, END_LINE]);
    for at in 0..lines.len() {
        for byte in 0..=255 {
            if byte != lines[at] {
                bad(
                    &with(&[(at, byte)], lines.clone()),
                    1 + usize::from(at > 43),
                );
            }
        }
    }
}

/// Cut anywhere: the line that is cut is not closed, or the end is missing.
#[test]
fn cut_at_every_byte() {
    let lines = closed(&[A_LINE, END_LINE]);
    for length in 0..lines.len() {
        bad(&lines[..length], 1 + usize::from(length > 43));
    }
    let long = text(&[0; 300], 255);
    for length in 0..long.len() {
        let closed = long[..length].iter().filter(|&&byte| byte == b'\n');
        bad(&long[..length], 1 + closed.count());
    }
}

#[test]
fn a_missing_end() {
    bad(b"", 1);
    bad(&closed(&[A_LINE]), 2);
    let lines = text(&[0; 100], 10);
    bad(&lines[..lines.len() - 12], 11);
}

/// A line that is not closed is itself bad, a perfect end record too.
#[test]
fn an_unclosed_line() {
    bad(A_LINE.as_bytes(), 1);
    bad(END_LINE.as_bytes(), 1);
    bad(format!("{A_LINE}\n{END_LINE}").as_bytes(), 2);
    bad(format!("{A_LINE}\n{A_LINE}").as_bytes(), 2);
    bad(b":", 1);
}

#[test]
fn anything_after_the_end() {
    for more in [
        "\n",
        " ",
        "\0",
        "\r\n",
        "x",
        ":",
        A_LINE,
        ":00000001FF\n",
        ":00000001FF",
    ] {
        bad(format!("{A_LINE}\n{END_LINE}\n{more}").as_bytes(), 3);
        bad(format!("{END_LINE}\n{more}").as_bytes(), 2);
    }
    let rest = text(&TABLE_A, 16);
    bad(&[&b":00000001FF\n"[..], &rest].concat(), 2);
}

/// The first bad line in file order, whatever is wrong with it and behind it.
#[test]
fn the_first_bad_line() {
    let table = raw::table(&[raw::text(1, &[0; 58])]);
    let good = text(&table, 10);
    let lines: Vec<&[u8]> = good.split_inclusive(|&byte| byte == b'\n').collect();
    assert_eq!(lines.len(), 9);
    for first in 0..lines.len() {
        let mut altered = lines.clone();
        for line in &mut altered[first..] {
            *line = b":zz\n";
        }
        bad(&altered.concat(), first + 1);
        // Without this line the address of the next is past a gap; without the last the end is missing.
        let mut gap = lines.clone();
        gap.remove(first);
        match first {
            // The end stands in the place of the last data, and the table is cut short.
            7 => refuses(&gap.concat(), 3, 0),
            _ => bad(&gap.concat(), first + 1),
        }
    }
}

/// As nobody else's text is taken: small letters, CR, blanks, an empty line, no colon.
#[test]
fn strange_characters() {
    let small = A_LINE.replace("FFFFFF", "ffffff");
    let one = A_LINE.replace("FFFFFF", "FFFfFF");
    for line in [
        &small[..],
        &one,
        &format!("{A_LINE}\r"),
        &format!("{A_LINE} "),
        &format!(" {A_LINE}"),
        &format!("{A_LINE}\t"),
        &A_LINE[1..],
        &A_LINE.replace(':', ";"),
        &format!(":{A_LINE}"),
        &A_LINE.replace("00FF", "0OFF").replace("80FF", "8OFF"),
        "",
        ":",
        "::",
        "; a comment",
    ] {
        bad(&closed(&[line, END_LINE]), 1);
        bad(&closed(&[line, A_LINE, END_LINE]), 1);
    }
    bad(&closed(&[A_LINE, ":00000001ff"]), 2);
    bad(&closed(&[A_LINE, "", END_LINE]), 2);
    bad(&closed(&[A_LINE, ":00000001FF\r"]), 2);
    bad(&closed(&[A_LINE, " :00000001FF"]), 2);
    bad(&closed(&[A_LINE, "00000001FF"]), 2);
    // Characters beside the digits and the letters, in the place of one.
    for strange in [
        b'/', b':', b'@', b'G', b'`', b'g', b'a', b'+', b'-', 0, 0xB0, 0xC1,
    ] {
        for at in [1, 4, 9, 42] {
            let line = with(&[(at, strange)], A_LINE.as_bytes().to_vec());
            bad(&[&line[..], b"\n:00000001FF\n"].concat(), 1);
        }
    }
}

/// A line of its bytes with a sum that fits.
fn summed(bytes: &[u8]) -> Vec<u8> {
    let sum = bytes.iter().fold(0u8, |sum, &byte| sum.wrapping_sub(byte));
    let digits: String = bytes.iter().map(|byte| format!("{byte:02X}")).collect();
    format!(":{digits}{sum:02X}\n").into_bytes()
}

/// The bytes of the line of table A but its sum.
fn of_a() -> Vec<u8> {
    [&[16, 0, 0, 0][..], &TABLE_A].concat()
}

fn with_end(line: &[u8]) -> Vec<u8> {
    [line, b":00000001FF\n"].concat()
}

#[test]
fn other_types() {
    assert_eq!(with_end(&summed(&of_a())), closed(&[A_LINE, END_LINE]));
    for kind in 1..=255 {
        bad(&with_end(&summed(&with(&[(3, kind)], of_a()))), 1);
    }
    for line in [
        ":020000020000FC",
        ":0400000300000000F9",
        ":020000040000FA",
        ":0400000500000000F7",
    ] {
        bad(&closed(&[line, A_LINE, END_LINE]), 1);
        bad(&closed(&[A_LINE, line, END_LINE]), 2);
    }
}

#[test]
fn other_sums() {
    for sum in 0..=255u8 {
        let line = format!("{}{sum:02X}", &A_LINE[..41]);
        match sum {
            0x59 => comes_back(&closed(&[&line, END_LINE]), &TABLE_A),
            _ => bad(&closed(&[&line, END_LINE]), 1),
        }
        let line = format!(":00000001{sum:02X}");
        if sum != 0xFF {
            bad(&closed(&[A_LINE, &line]), 2);
        }
    }
}

/// A length of 0, one too small, one too great, each with a sum that fits; a data record of no bytes.
#[test]
fn other_lengths() {
    for length in 0..=255 {
        if length != 16 {
            bad(&with_end(&summed(&with(&[(0, length)], of_a()))), 1);
        }
    }
    bad(&with_end(b":0000000000\n"), 1);
    bad(
        &[&closed(&[A_LINE])[..], b":00001000F0\n:00000001FF\n"].concat(),
        2,
    );
    // Half a byte more, and one pair more than is said.
    let half = with_end(format!("{A_LINE}0\n").as_bytes());
    bad(&half, 1);
    let more = with_end(format!("{A_LINE}00\n").as_bytes());
    bad(&more, 1);
    for short in [":0", ":00", ":0000", ":000000", ":00000000", ":000000000"] {
        bad(&closed(&[short, END_LINE]), 1);
    }
}

/// The address is the number of bytes so far, and nothing else.
#[test]
fn gaps_and_overlaps() {
    let table = raw::table(&[raw::text(1, &[0; 26])]);
    let halves = |address: u16| {
        let lines = [
            record(0, DATA, &table[..24]),
            record(address, DATA, &table[24..]),
        ];
        with_end(&lines.concat())
    };
    comes_back(&halves(24), &table);
    for address in (0..=65_535).filter(|&address| address != 24) {
        assert_eq!(second::hex::bytes(&halves(address)), Err(2), "{address}");
    }
    for address in [0, 8, 16, 23, 25, 32, 256 + 24, 24 << 8, 65_535] {
        bad(&halves(address), 2);
    }
    let lines = [
        record(24, DATA, &table[24..]),
        record(0, DATA, &table[..24]),
    ];
    bad(&with_end(&lines.concat()), 1);
    bad(&with_end(&record(1, DATA, &TABLE_A)), 1);
    bad(&with_end(&record(256, DATA, &TABLE_A)), 1);
}

#[test]
fn other_ends() {
    for address in 1..=65_535 {
        let text = [&closed(&[A_LINE])[..], &record(address, END, &[])].concat();
        assert_eq!(second::hex::bytes(&text), Err(2), "{address}");
    }
    bad(&[&closed(&[A_LINE])[..], &record(16, END, &[])].concat(), 2);
    bad(&[&closed(&[A_LINE])[..], &record(0, END, &[0])].concat(), 2);
    bad(&closed(&[A_LINE, ":00000001FF00"]), 2);
    bad(&closed(&[A_LINE, ":0000000100"]), 2);
    bad(&closed(&[A_LINE, ":0000001FF"]), 2);
}

/// Zeros up to the last address, in records of each length: they are no table. One byte more has no address.
#[test]
fn after_65_536_bytes_no_address_is_right() {
    for each in [1, 16, 64, 255] {
        let lines = text(&[0; 65_536], each);
        refuses(&lines, 2, 0);
        let records = 65_536_usize.div_ceil(each);
        for address in [0, 0xFFFF, 1] {
            let mut more = lines[..lines.len() - 12].to_vec();
            more.extend(record(address, DATA, &[0]));
            more.extend(record(0, END, &[]));
            bad(&more, records + 1);
        }
    }
    // A record that starts at the last address, or a little before it, and passes it.
    for (front, last) in [(65_535, 255), (65_535, 2), (65_400, 255)] {
        let mut lines = text(&vec![1; front], 5);
        lines.truncate(lines.len() - 12);
        lines.extend(record(front as u16, DATA, &vec![1; last]));
        let mut more = lines.clone();
        lines.extend(record(0, END, &[]));
        refuses(&lines, 3, 0);
        more.extend(record((front + last) as u16, DATA, &[1]));
        more.extend(record(0, END, &[]));
        bad(&more, front.div_ceil(5) + 2);
    }
}

/// Texts much longer than any good one.
#[test]
fn much_junk() {
    bad(&vec![0; 3_000_000], 1);
    bad(&vec![b'\n'; 3_000_000], 1);
    bad(&b":00000001FF\n".repeat(100_000), 2);
    bad(&closed(&[A_LINE]).repeat(100_000), 2);
    let table = raw::table(&[raw::text(1, &[0; 58])]);
    bad(&[text(&table, 10), vec![b'F'; 1_000_000]].concat(), 10);
}

/// Whatever the table: there and back it is the same, refused as the archive's reader says, whole text or none.
#[test]
fn there_and_back() {
    let mut random = Random::new(1114);
    let mut moved = [0; 2];
    let mut hold = |table: &[u8], chip: Chip| {
        let verdict = second::check(table, Settings::new(chip, Rules::Archive));
        let lines = there(table, chip);
        moved[usize::from(lines.is_ok())] += 1;
        match verdict {
            Verdict::Accepted(_) => assert_eq!(back(&lines.unwrap(), chip), Ok(table.to_vec())),
            Verdict::Refused { number, place } => {
                let refusal = Refusal::at(number, place);
                assert_eq!(lines, Err(refusal));
                // More bytes than there are addresses have no text.
                if table.len() <= 65_536 {
                    assert_eq!(back(&text(table, 16), chip), Err(refusal));
                }
            }
        }
    };
    for at in 0..1_000 {
        let settings = Settings::ALL[at % 4];
        hold(&valid(&mut random, settings), settings.chip);
        hold(&any(&mut random, settings), settings.chip);
    }
    for (at, (_, table)) in targeted().iter().enumerate() {
        hold(table, Chip::BOTH[at % 2]);
    }
    assert!(moved.iter().all(|&count| count > 1_000), "{moved:?}");
}

/// Altered texts: both forms answer the same, and what comes back with 0 goes there again as the same bytes.
#[test]
fn altered_texts() {
    let mut random = Random::new(21);
    let mut came = [0; 26];
    for at in 0..8_000 {
        let settings = Settings::ALL[at % 4];
        let table = match at % 5 {
            0 => any(&mut random, settings),
            _ => valid(&mut random, settings),
        };
        let table = &table[..table.len().min(600)];
        match back(&hex_text(&mut random, table), settings.chip) {
            Ok(bytes) => {
                came[0] += 1;
                let again = there(&bytes, settings.chip).unwrap();
                assert_eq!(back(&again, settings.chip), Ok(bytes));
            }
            Err(refusal) => came[usize::from(refusal.number)] += 1,
        }
    }
    assert!(came[0] > 500 && came[21] > 3_000, "{came:?}");
}
