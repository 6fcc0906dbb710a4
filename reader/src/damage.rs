//! Damage to a table's bytes.

use crate::breaks;
use crate::contents::Contents;
use crate::lawful;
use crate::making;
use crate::random::Random;

/// The table of the contents, damaged in one way.
pub fn damaged(random: &mut Random, contents: &Contents) -> Vec<u8> {
    let form = lawful::form(random, contents);
    let mut table = making::table_of_form(form, contents);
    if random.percent(60) {
        let mut broken = contents.clone();
        let without = contents.parameters.is_empty();
        let rule = if without { breaks::rule_of_frames } else { breaks::rule_of_tables };
        rule(random, &mut broken);
        return making::table_of_form(form, &broken);
    }
    match random.below(12) {
        0 => length(random, &mut table),
        1 | 2 => header_field(random, &mut table),
        3 => offset(random, &mut table),
        4 => subframe_field(random, contents, &mut table),
        5 | 6 => parameter_field(random, contents, &mut table),
        7 | 8 => sample_or_component(random, contents, &mut table),
        9 => left_over(random, contents, &mut table),
        10 => return of_other_form(random, contents),
        _ => any_byte(random, &mut table),
    }
    table
}

/// The table of the contents, with another form or margin, lawful or not.
pub fn of_other_form(random: &mut Random, contents: &Contents) -> Vec<u8> {
    let stored = *random.pick(&[0, 1, 1, 2, 2, 3, 3, 3, 4, 4, 257, 258, 259]);
    let laid_out = if stored == 1 || stored == 2 { stored } else { 3 };
    let mut table = making::table_of_form(laid_out, contents);
    put(&mut table, 14, stored, 2);
    if random.percent(70) {
        let index = random.below(contents.subframes.len());
        let margin = part_start(&table, 0) + making::SUBFRAME_SIZE * index + random.pick(&[4, 6]);
        put(&mut table, margin, *random.pick(&[0, 4095, 4096, 65_534, 65_535, 65_535]), 2);
    }
    table
}

/// The table of the contents, with one component's overlap or zero byte
/// changed, lawfully or not: about its own bits and the next one's.
pub fn of_other_overlap(random: &mut Random, contents: &Contents) -> Vec<u8> {
    let mut table = making::table_of_form(3, contents);
    let index = random.below(contents.component_count());
    let entry = part_start(&table, 3) + making::component_size(3) * index;
    let bits = |table: &[u8], entry: usize| table[entry + 5] + 1 - table[entry + 4];
    let own = bits(&table, entry);
    let is_last = index + 1 == contents.component_count();
    let next = if is_last { 0 } else { bits(&table, entry + making::component_size(3)) };
    match random.below(5) {
        0 => table[entry + 7] = *random.pick(&[1, 1, 2, 128, 255]),
        1 | 2 => table[entry + 6] = *random.pick(&[next, next + 1, next + 1]),
        _ => table[entry + 6] = *random.pick(&[0, 1, 1, own - 1, own, own + 1, 16, 17, 32, 255]),
    }
    table
}

fn length(random: &mut Random, table: &mut Vec<u8>) {
    match random.below(6) {
        0 => drop(table.pop()),
        1 => table.push(0),
        2 => table.truncate(random.below(table.len())),
        3 => table.truncate(*random.pick(&[0, 1, 3, 4, 16, 35, 36])),
        4 => table.extend(vec![165; random.between(1, 20)]),
        _ => {
            // The total is right for the slice, but the text is longer.
            table.push(b'x');
            let total = (table.len() as u32).to_le_bytes();
            table[..4].copy_from_slice(&total);
        }
    }
}

/// A number near the one that stands there, or far from it.
fn changed(random: &mut Random, value: u64) -> u64 {
    match random.below(6) {
        0 | 1 => value.wrapping_add(1),
        2 | 3 => value.wrapping_sub(1),
        4 => 0,
        _ => random.next(),
    }
}

/// Changes the number of `size` bytes at this place.
fn change(random: &mut Random, table: &mut [u8], at: usize, size: usize) {
    if at + size > table.len() {
        return;
    }
    let mut wide = [0; 8];
    wide[..size].copy_from_slice(&table[at..at + size]);
    let value = changed(random, u64::from_le_bytes(wide));
    table[at..at + size].copy_from_slice(&value.to_le_bytes()[..size]);
}

fn header_field(random: &mut Random, table: &mut [u8]) {
    match random.below(8) {
        0 | 1 => change(random, table, 0, 4),
        2 => table[12] = *random.pick(&[2, 3, 0, 1, 255]),
        3 => table[13] = 1,
        4 => change(random, table, 14, 2),
        _ => {
            let at = *random.pick(&[4, 6, 8, 10]);
            change(random, table, at, 2);
        }
    }
}

fn offset(random: &mut Random, table: &mut [u8]) {
    let at = *random.pick(&[16, 20, 24, 28, 32]);
    change(random, table, at, 4);
}

/// Where a part begins, by the table's header.
fn part_start(table: &[u8], part: usize) -> usize {
    let at = 16 + 4 * part;
    u32::from_le_bytes([table[at], table[at + 1], table[at + 2], table[at + 3]]) as usize
}

fn subframe_field(random: &mut Random, contents: &Contents, table: &mut [u8]) {
    let index = random.below(contents.subframes.len());
    let entry = part_start(table, 0) + making::SUBFRAME_SIZE * index;
    let (at, size) = *random.pick(&[(0, 2), (2, 2), (4, 2), (6, 2), (8, 8), (16, 4)]);
    change(random, table, entry + at, size);
}

fn parameter_field(random: &mut Random, contents: &Contents, table: &mut [u8]) {
    if contents.parameters.is_empty() {
        return header_field(random, table);
    }
    let index = random.below(contents.parameters.len());
    let entry = part_start(table, 1) + making::PARAMETER_SIZE * index;
    match random.below(9) {
        0 => table[entry + 3] ^= *random.pick(&[1, 2, 4, 8, 128]),
        1 => table[entry + 3] |= *random.pick(&[4, 16, 64]),
        2 => exchange_lengths(table, entry),
        _ => {
            let (at, size) = *random.pick(&[(0, 1), (1, 1), (2, 1), (4, 4), (8, 2), (10, 2), (12, 4)]);
            change(random, table, entry + at, size);
        }
    }
}

/// Name and mnemonic lengths exchanged: the sum stays.
fn exchange_lengths(table: &mut [u8], entry: usize) {
    table.swap(entry, entry + 1);
}

fn sample_or_component(random: &mut Random, contents: &Contents, table: &mut [u8]) {
    if contents.parameters.is_empty() {
        return header_field(random, table);
    }
    if random.percent(60) {
        let index = random.below(contents.sample_count());
        let entry = part_start(table, 2) + making::SAMPLE_SIZE * index;
        let (at, size) = *random.pick(&[(0, 4), (4, 2), (6, 2)]);
        return change(random, table, entry + at, size);
    }
    let index = random.below(contents.component_count());
    let component_size = making::component_size(usize::from(table[14]));
    let entry = part_start(table, 3) + component_size * index;
    let (at, size) = *random.pick(&[(0, 2), (2, 2), (4, 1), (5, 1), (6, 1), (7, 1)]);
    let (at, size) = if at < component_size { (at, size) } else { (4, 1) };
    change(random, table, entry + at, size);
}

/// A sample or a component that no parameter counts, and all else in order.
fn left_over(random: &mut Random, contents: &Contents, table: &mut Vec<u8>) {
    let form = usize::from(table[14]);
    let samples = contents.sample_count();
    let components = contents.component_count();
    let more = if random.percent(50) { (1, 0) } else { (0, 1) };
    let end = part_start(table, if more == (1, 0) { 3 } else { 4 });
    let entry: Vec<u8> = if more == (1, 0) {
        let first = (components as u16).to_le_bytes();
        [&[0; 4], &first[..], &[0; 2]].concat()
    } else {
        [1, 0, 1, 0, 1, 1, 0, 0][..making::component_size(form)].to_vec()
    };
    table.splice(end..end, entry);
    let (samples, components) = (samples + more.0, components + more.1);
    let counts = [contents.subframes.len(), contents.parameters.len(), samples, components];
    let offsets = making::offsets(form, counts);
    let total = table.len();
    put(table, 0, total, 4);
    put(table, 8, samples, 2);
    put(table, 10, components, 2);
    for (part, offset) in offsets.into_iter().enumerate() {
        put(table, 16 + 4 * part, offset, 4);
    }
}

fn put(table: &mut [u8], at: usize, value: usize, size: usize) {
    table[at..at + size].copy_from_slice(&value.to_le_bytes()[..size]);
}

fn any_byte(random: &mut Random, table: &mut [u8]) {
    for _ in 0..random.between(1, 3) {
        let at = random.below(table.len());
        table[at] = match random.below(4) {
            0 => table[at] ^ (1 << random.below(8)),
            1 => *random.pick(&[0, 1, 9, 32, b',', 127, 255]),
            _ => random.next() as u8,
        };
    }
}
