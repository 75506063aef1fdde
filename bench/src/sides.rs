//! The two readers, called alike: bytes in, number + 256 x (place or count) out.

use second::Settings;

extern "C" {
    fn esa_check(table: *const u8, length: usize, settings: u64) -> u64;
}

pub type Side = fn(&[u8]) -> u64;

/// The proved reader and the second program's fast one, with these settings.
pub fn both(settings: Settings) -> [Side; 2] {
    match settings.number() {
        0 => [ours::<0>, second::<0>],
        1 => [ours::<1>, second::<1>],
        2 => [ours::<2>, second::<2>],
        _ => [ours::<3>, second::<3>],
    }
}

/// The proved reader with these settings.
#[inline(never)]
fn ours<const SETTINGS: u64>(table: &[u8]) -> u64 {
    // SAFETY: the call reads the bytes lent and keeps nothing.
    unsafe { esa_check(table.as_ptr(), table.len(), SETTINGS) }
}

/// The second program's fast reader with these settings.
#[inline(never)]
fn second<const SETTINGS: u64>(table: &[u8]) -> u64 {
    let verdict = second::check(table, Settings::of_number(SETTINGS));
    u64::from(verdict.number()) + 256 * verdict.beside() as u64
}

/// The number of tables on which the two differ.
pub fn differences([ours, second]: [Side; 2], tables: &[Vec<u8>]) -> usize {
    let differ = |table: &&Vec<u8>| ours(table) != second(table);
    tables.iter().filter(differ).count()
}
