//! The calls of `include/esa.h` as the archive has them, pointers and lengths. What a caller owes stands at the head of that file:
//! each pointer with its length is memory that may be read (of `*mut` also written) until the call returns, the places do not
//! overlap, nobody else writes to them. The functions over this module lend slices and arrays of the lengths named here, and so owe
//! nothing more: that is the ground of every `unsafe` in this crate.

extern "C" {
    pub fn esa_check(table: *const u8, length: usize, settings: u64) -> u64;
    pub fn esa_describe(table: *const u8, length: usize, settings: u64, numbers: *mut u8) -> u64;
    pub fn esa_element(table: *const u8, length: usize, k: usize, settings: u64) -> u64;
    pub fn esa_fields(table: *const u8, length: usize, k: usize, settings: u64, numbers: *mut u8) -> u64;
    pub fn esa_part_length(table: *const u8, length: usize, k: usize, settings: u64) -> usize;
    pub fn esa_part(table: *const u8, length: usize, k: usize, settings: u64) -> u64;
    pub fn esa_text(table: *const u8, length: usize, k: usize, settings: u64) -> u64;
    pub fn esa_label(table: *const u8, length: usize, k: usize, settings: u64, name: *const u8, name_length: usize) -> u64;
    pub fn esa_fan(table: *const u8, length: usize, zone: u8, settings: u64) -> u64;
    pub fn esa_list(table: *const u8, length: usize, settings: u64, out: *mut u8) -> usize;
    pub fn esa_reading(table: *const u8, length: usize, k: usize, count: u64, settings: u64) -> u64;
    pub fn esa_thermistor(count: u64) -> u64;

    pub fn esa_block(part: *const u8, length: usize, j: usize) -> u64;
    pub fn esa_pair(part: *const u8, length: usize, j: usize, i: usize) -> u64;
    pub fn esa_entries(part: *const u8, length: usize, w: usize) -> u64;
    pub fn esa_entry(part: *const u8, length: usize, w: usize, i: usize) -> u64;
    pub fn esa_colours(part: *const u8, length: usize, w: usize) -> u64;
    pub fn esa_colour(part: *const u8, length: usize, w: usize, i: usize) -> u64;

    pub fn esa_sheet(table: *const u8, length: usize, settings: u64, sheet: *mut u16) -> u64;
    pub fn esa_sheet_forward(table: *const u8, length: usize, settings: u64, sheet: *mut u16) -> u64;
    pub fn esa_sheet_text(sheet: *const u16, settings: u64, out: *mut u8) -> usize;

    pub fn esa_receiving_start(numbers: *mut usize, description: *mut u8, element: *mut u8, settings: usize) -> u64;
    pub fn esa_receiving_piece(
        numbers: *mut usize,
        description: *mut u8,
        element: *mut u8,
        zones: *mut bool,
        strings: *mut bool,
        named_zones: *mut bool,
        named_strings: *mut bool,
        zone_places: *mut u16,
        string_places: *mut u16,
        piece: *const u8,
        length: usize,
    ) -> u64;
    pub fn esa_receiving_end(
        numbers: *mut usize,
        description: *const u8,
        zones: *const bool,
        strings: *const bool,
        named_zones: *const bool,
        named_strings: *const bool,
        zone_places: *const u16,
        string_places: *const u16,
    ) -> u64;

    pub fn esa_tracing_start(
        numbers: *mut u64,
        sensors: *mut u16,
        tallies: *mut u32,
        table: *const u8,
        length: usize,
        settings: u64,
    ) -> u64;
    pub fn esa_tracing_piece(
        numbers: *mut u64,
        sensors: *const u16,
        tallies: *mut u32,
        piece: *const u8,
        length: usize,
        out: *mut u8,
    ) -> usize;
    pub fn esa_tracing_end(numbers: *const u64, sensors: *const u16, tallies: *const u32, out: *mut u8) -> usize;

    pub fn esa_diff(one: *const u8, one_length: usize, two: *const u8, two_length: usize, settings: u64, out: *mut u8) -> u64;

    pub fn esa_salvage(file: *const u8, length: usize, settings: u64, out: *mut u8, room: usize, lines: *mut u8) -> u64;

    pub fn esa_start(buffer: *mut u8, length: usize, settings: u64, numbers: *const u8) -> u64;
    pub fn esa_append(
        buffer: *mut u8,
        length: usize,
        id: u8,
        settings: u64,
        numbers: *const u8,
        part: *const u8,
        part_length: usize,
    ) -> u64;
    pub fn esa_rewrite(table: *const u8, length: usize, settings: u64, out: *mut u8, room: usize) -> u64;
    pub fn esa_remove(table: *mut u8, length: usize, k: usize, settings: u64) -> u64;

    pub fn esa_hex(table: *const u8, length: usize, settings: u64, out: *mut u8, room: usize) -> u64;
    pub fn esa_unhex(text: *const u8, length: usize, settings: u64, out: *mut u8, room: usize) -> u64;
}
