//! Answers that follow from the papers: table A of document 02's 11/14 both ways, and texts around it. They are the same on both
//! chips, whatever bit 1 of the settings says.

use crate::known::{with, F, ZONE_1};
use second::generator::raw::TABLE_A;

/// What comes back of a text: its bytes with 0, or number and place.
pub type Comes = Result<Vec<u8>, (u8, usize)>;

pub const A_TEXT: &str = ":10000000011000020007000080FFFFFF0000000059\n:00000001FF\n";
const A: &str = ":10000000011000020007000080FFFFFF0000000059";
/// The same in two records of eight bytes.
const HALVES: [&str; 2] = [":080000000110000200070000DE", ":0800080080FFFFFF0000000073"];
const END: &str = ":00000001FF";

/// Tables on their way there.
pub fn tables() -> Vec<(&'static str, Vec<u8>, Comes)> {
    vec![
        ("A", TABLE_A.to_vec(), Ok(A_TEXT.as_bytes().to_vec())),
        (
            "A without its last byte",
            TABLE_A[..15].to_vec(),
            Err((1, 0)),
        ),
        ("nothing", Vec::new(), Err((1, 0))),
        ("the text of A", A_TEXT.as_bytes().to_vec(), Err((2, 0))),
        ("A, F", with(&[&F]), Err((13, 16))),
    ]
}

/// Texts on their way back.
pub fn texts() -> Vec<(&'static str, Vec<u8>, Comes)> {
    let a = || Ok(TABLE_A.to_vec());
    let lines = |lines: &[&str]| {
        let closed = lines.iter().map(|line| format!("{line}\n"));
        closed.collect::<String>().into_bytes()
    };
    let bad = |line| Err((21, line));
    let [front, rear] = HALVES;
    let refused = second::hex::text(&with(&[&F]), 20);
    let good = with(&[&F, &ZONE_1]);
    let longest = second::hex::text(&good, 255);
    vec![
        ("A", lines(&[A, END]), a()),
        ("A in halves", lines(&[front, rear, END]), a()),
        ("nothing", Vec::new(), bad(1)),
        ("the end alone", lines(&[END]), Err((1, 0))),
        ("the end alone, unclosed", END.into(), bad(1)),
        ("no end", lines(&[A]), bad(2)),
        ("no end, in halves", lines(&[front, rear]), bad(3)),
        ("an unclosed end", format!("{A}\n{END}").into(), bad(2)),
        ("a line feed after the end", lines(&[A, END, ""]), bad(3)),
        ("two ends", lines(&[A, END, END]), bad(3)),
        ("A after the end", lines(&[END, A, END]), bad(2)),
        ("an empty line", lines(&["", A, END]), bad(1)),
        (
            "an empty line between",
            lines(&[front, "", rear, END]),
            bad(2),
        ),
        (
            "carriage returns",
            format!("{A}\r\n{END}\r\n").into(),
            bad(1),
        ),
        (
            "one at the end alone",
            format!("{A}\n{END}\r\n").into(),
            bad(2),
        ),
        ("small letters", lines(&[&A.to_lowercase(), END]), bad(1)),
        (
            "a small letter in the end",
            lines(&[A, ":00000001Ff"]),
            bad(2),
        ),
        ("a blank behind", lines(&[&format!("{A} "), END]), bad(1)),
        ("a blank before", lines(&[&format!(" {A}"), END]), bad(1)),
        ("no colon", lines(&[&A[1..], END]), bad(1)),
        ("a wrong sum", lines(&[&A.replace("59", "5A"), END]), bad(1)),
        ("halves exchanged", lines(&[rear, front, END]), bad(1)),
        (
            "the first half twice",
            lines(&[front, front, rear, END]),
            bad(2),
        ),
        ("the first half missing", lines(&[rear, END]), bad(1)),
        (
            "a gap",
            lines(&[front, ":0800090080FFFFFF0000000072", END]),
            bad(2),
        ),
        (
            "an overlap",
            lines(&[front, ":0800070080FFFFFF0000000074", END]),
            bad(2),
        ),
        ("no data", lines(&[":0000000000", A, END]), bad(1)),
        ("type 02", lines(&[":020000020000FC", A, END]), bad(1)),
        ("type 03", lines(&[A, ":0400000300000000F9", END]), bad(2)),
        ("type 04", lines(&[":020000040000FA", A, END]), bad(1)),
        ("type 05", lines(&[A, ":0400000500000000F7", END]), bad(2)),
        ("an end with an address", lines(&[A, ":00001001EF"]), bad(2)),
        ("an end with data", lines(&[A, ":0100000100FE"]), bad(2)),
        ("A, F", refused, Err((13, 16))),
        ("A, F, zone 1 in one record", longest, Ok(good)),
    ]
}
