//! Blocks and register pairs out of any bytes: hand-made parts, whole and damaged.

use second::blocks::{colour_block, register_block, speed_block, RegisterPair};
use second::units::HundredRpm;

/// Two speed blocks, of two pairs and of one.
const SPEEDS: [u8; 16] = [
    0x0A, 2, 0x11, 0x12, 0x13, 0x14, 0x21, 0x22, 0x23, 0x24, 0x0B, 1, 0x31, 0x32, 0x33, 0x34,
];

fn block(part: &[u8], j: usize) -> Option<(u8, u8)> {
    let block = speed_block(part, j)?;
    let HundredRpm(speed) = block.speed;
    Some((speed, block.pairs.entries()))
}

fn pair(part: &[u8], j: usize, i: usize) -> Option<(u16, u16)> {
    speed_block(part, j)?.pairs.get(i).map(both)
}

fn entries(part: &[u8], w: usize) -> Option<u8> {
    Some(register_block(part, w)?.entries())
}

fn entry(part: &[u8], w: usize, i: usize) -> Option<(u16, u16)> {
    register_block(part, w)?.get(i).map(both)
}

fn both(pair: RegisterPair) -> (u16, u16) {
    (pair.address, pair.data)
}

#[test]
fn of_a_controller() {
    assert_eq!(block(&SPEEDS, 0), Some((10, 2)));
    assert_eq!(block(&SPEEDS, 1), Some((11, 1)));
    assert_eq!(pair(&SPEEDS, 0, 0), Some((0x1211, 0x1413)));
    assert_eq!(pair(&SPEEDS, 0, 1), Some((0x2221, 0x2423)));
    assert_eq!(pair(&SPEEDS, 1, 0), Some((0x3231, 0x3433)));
    for j in [2, 3, 6, 1 << 16, usize::MAX] {
        assert_eq!(block(&SPEEDS, j), None);
        assert_eq!(pair(&SPEEDS, j, 0), None);
    }
    for i in [2, 3, 256, 1 << 62, usize::MAX] {
        assert_eq!(pair(&SPEEDS, 0, i), None);
    }
    assert_eq!(pair(&SPEEDS, 1, 1), None);
}

/// A block that is cut short is none, and neither are its pairs; those before it stand.
#[test]
fn of_a_controller_cut_short() {
    for length in 0..SPEEDS.len() {
        let part = &SPEEDS[..length];
        let first = (length >= 10).then_some((10, 2));
        assert_eq!(block(part, 0), first, "{length}");
        assert_eq!(pair(part, 0, 0), first.map(|_| (0x1211, 0x1413)));
        assert_eq!(block(part, 1), None);
        assert_eq!(pair(part, 1, 0), None);
    }
    let longer = [&SPEEDS[..], &[0x0C]].concat();
    assert_eq!(block(&longer, 1), Some((11, 1)));
    assert_eq!(block(&longer, 2), None);
}

#[test]
fn without_entries_or_with_the_most() {
    let none = [1, 0, 2, 0, 3, 0, 4, 0, 5, 0, 6, 0, 7, 0, 8];
    assert_eq!(block(&none, 6), Some((7, 0)));
    assert_eq!(block(&none, 7), None);
    assert_eq!(pair(&none, 6, 0), None);
    let mut most = vec![9, 255];
    most.extend((0..255).flat_map(|at| [at, 0xEE, 0xFF, at]));
    assert_eq!(block(&most, 0), Some((9, 255)));
    assert_eq!(pair(&most, 0, 254), Some((0xEEFE, 0xFEFF)));
    assert_eq!(pair(&most, 0, 255), None);
    assert_eq!(block(&most[..1021], 0), None);
    assert_eq!(pair(&most[..1021], 0, 0), None);
}

/// No sum is cut to two bytes.
#[test]
fn of_a_part_longer_than_any_table() {
    let mut long: Vec<u8> = [vec![3, 255], vec![0x77; 1020]].concat().repeat(65);
    long.extend([4, 1, 5, 6, 7, 8]);
    assert_eq!(block(&long, 64), Some((3, 255)));
    assert_eq!(block(&long, 65), Some((4, 1)));
    assert_eq!(pair(&long, 65, 0), Some((0x0605, 0x0807)));
    assert_eq!(block(&long, 66), None);
}

#[test]
fn of_a_tachometer() {
    let part = [
        1, 0x11, 0x12, 0x13, 0x14, 2, 0x21, 0x22, 0x23, 0x24, 0x31, 0x32, 0x33, 0x34,
    ];
    assert_eq!((entries(&part, 0), entries(&part, 1)), (Some(1), Some(2)));
    assert_eq!(entry(&part, 0, 0), Some((0x1211, 0x1413)));
    assert_eq!(entry(&part, 0, 1), None);
    assert_eq!(entry(&part, 1, 0), Some((0x2221, 0x2423)));
    assert_eq!(entry(&part, 1, 1), Some((0x3231, 0x3433)));
    for i in [2, 1 << 62, usize::MAX] {
        assert_eq!(entry(&part, 1, i), None);
    }
    for w in [2, 3, 256, usize::MAX] {
        assert_eq!(entries(&part, w), None);
        assert_eq!(entry(&part, w, 0), None);
    }
    for length in 0..part.len() {
        let first = (length >= 5).then_some(1);
        assert_eq!(entries(&part[..length], 0), first, "{length}");
        assert_eq!(entries(&part[..length], 1), None, "{length}");
        assert_eq!(entry(&part[..length], 1, 0), None, "{length}");
    }
    assert_eq!(
        (entries(&[0, 0], 0), entries(&[0, 0], 1)),
        (Some(0), Some(0))
    );
    assert_eq!((entries(&[0], 0), entries(&[0], 1)), (Some(0), None));
    // What stands behind two blocks is of neither.
    assert_eq!(entries(&[0, 0, 9, 9], 1), Some(0));
}

/// As 0Ah's two, with a third behind them.
#[test]
fn of_an_external_rgb_led() {
    let entries = |part: &[u8], w| Some(colour_block(part, w)?.entries());
    let entry = |part: &[u8], w, i| colour_block(part, w)?.get(i).map(both);
    let part = [
        1, 0x11, 0x12, 0x13, 0x14, 0, 2, 0x21, 0x22, 0x23, 0x24, 0x31, 0x32, 0x33, 0x34,
    ];
    assert_eq!([0, 1, 2].map(|w| entries(&part, w)), [1, 0, 2].map(Some));
    assert_eq!(entry(&part, 0, 0), Some((0x1211, 0x1413)));
    assert_eq!(entry(&part, 0, 1), None);
    assert_eq!(entry(&part, 1, 0), None);
    assert_eq!(entry(&part, 2, 0), Some((0x2221, 0x2423)));
    assert_eq!(entry(&part, 2, 1), Some((0x3231, 0x3433)));
    for i in [2, 1 << 62, usize::MAX] {
        assert_eq!(entry(&part, 2, i), None);
    }
    for w in [3, 4, 256, usize::MAX] {
        assert_eq!(entries(&part, w), None);
        assert_eq!(entry(&part, w, 0), None);
    }
    for length in 0..part.len() {
        let cut = &part[..length];
        assert_eq!(entries(cut, 0), (length >= 5).then_some(1), "{length}");
        assert_eq!(entries(cut, 1), (length >= 6).then_some(0), "{length}");
        assert_eq!(entries(cut, 2), None, "{length}");
        assert_eq!(entry(cut, 2, 0), None, "{length}");
    }
    // What stands behind three blocks is of none of them.
    assert_eq!(entries(&[0, 0, 0, 9, 9], 2), Some(0));
    // Sums pass 255, and 1,024.
    let long: Vec<u8> = [200u8, 100, 50]
        .into_iter()
        .flat_map(|count| [vec![count], vec![count; 4 * usize::from(count)]].concat())
        .collect();
    assert_eq!(
        [0, 1, 2].map(|w| entries(&long, w)),
        [200, 100, 50].map(Some)
    );
    assert_eq!(entry(&long, 2, 49), Some((0x3232, 0x3232)));
    assert_eq!(entry(&long, 2, 50), None);
    assert_eq!(entries(&long[..long.len() - 1], 2), None);
}
