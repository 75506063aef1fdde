//! How the proved reader's time on the 320 grows with the bytes of accepted tables of one sort.

use crate::rounds;
use crate::sides;
use second::generator::raw;
use second::Settings;

const SIZES: [usize; 6] = [16, 64, 256, 1_024, 2_048, 4_096];

/// Prints two sorts and gives the number of differences.
pub fn report() -> usize {
    let strings = "strings of 48 bytes, the last one longer where needed";
    let controllers =
        "09h of six one-pair blocks (47 bytes each) in one zone, a string for the rest";
    series(strings, of_strings) + series(controllers, of_controllers)
}

fn series(name: &str, make: fn(usize) -> Vec<u8>) -> usize {
    println!("\nGrowth, accepted tables: {name}.\n");
    println!("| Bytes | elements | ours, ns | ns a byte |\n|---|---|---|---|");
    let sides = sides::both(Settings::default());
    let [ours, second] = sides;
    SIZES
        .iter()
        .map(|&size| {
            let table = make(size);
            let answer = second(&table);
            assert!(
                table.len() == size && answer.is_multiple_of(256),
                "a table made wrongly"
            );
            let tables = [table];
            let [time] = rounds::medians([ours], &tables);
            let for_a_byte = time / size as f64;
            println!(
                "| {size} | {} | {time:.1} | {for_a_byte:.2} |",
                answer / 256
            );
            sides::differences(sides, &tables)
        })
        .sum()
}

/// A string element of so many bytes, an even number from 6 on: a text has two bytes to a unit.
fn string(number: usize, length: usize) -> Vec<u8> {
    raw::text(number as u8, &b"x\0".repeat((length - 6) / 2))
}

fn of_strings(size: usize) -> Vec<u8> {
    let left = size - 16;
    let count = left / 48;
    let mut elements: Vec<Vec<u8>> = (1..=count).map(|number| string(number, 48)).collect();
    if let Some(last) = elements.last_mut() {
        *last = string(count, 48 + left % 48);
    }
    raw::table(&elements)
}

fn of_controllers(size: usize) -> Vec<u8> {
    // Zone (30) and string (6 or more) come first; from 64 bytes on there is room for both.
    let Some(left) = size.checked_sub(16 + 30 + 6) else {
        return raw::table(&[]);
    };
    let mut elements = vec![raw::zone(1, 0), string(1, 6 + left % 47)];
    let controller = raw::controller(1, 0, 0x40, &[1; 6]);
    elements.extend(std::iter::repeat_n(controller, left / 47));
    raw::table(&elements)
}
