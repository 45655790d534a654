//! Damage to equipment sheets: fields at and past their limits, members out of order, bytes changed, added and taken
//! away.

use account::sheet::{layout, Sheet};

use crate::damage::{damage_bytes, put, BYTES};
use crate::rng::Rng;
use crate::sheets::{next_to_limit, random_sheet, sheet_of};

/// The header's size, and the place of its counts.
const HEADER: usize = 8;
const COUNTS: usize = 5;

/// The place of a line's count of members, and of its first member.
const MEMBER_COUNT: usize = 12;
const MEMBERS: usize = 13;

/// A random file: one in four valid, one in forty of random bytes, the others damaged, of more than 128 lines, or both.
pub fn random_sheet_file(rng: &mut Rng) -> Vec<u8> {
    if rng.one_in(4) {
        return layout(&random_sheet(rng));
    }
    if rng.one_in(30) {
        let length = rng.below(40);
        return rng.bytes(length);
    }
    if rng.one_in(6) {
        let count = rng.pick(&[129, 130, 200, 255]);
        let sheet = sheet_of(rng, count);
        return match rng.one_in(2) {
            true => layout(&sheet),
            false => damaged_sheet(rng, &sheet),
        };
    }
    let sheet = random_sheet(rng);
    damaged_sheet(rng, &sheet)
}

/// A sheet's file with one to three damages.
pub fn damaged_sheet(rng: &mut Rng, sheet: &Sheet) -> Vec<u8> {
    let mut bytes = layout(sheet);
    for _ in 0..rng.between(1, 3) {
        damage(rng, sheet, &mut bytes);
    }
    bytes
}

fn damage(rng: &mut Rng, sheet: &Sheet, bytes: &mut Vec<u8>) {
    match rng.below(12) {
        0 => put(bytes, rng.below(COUNTS), &[rng.pick(&BYTES)]),
        1 => put(bytes, COUNTS + rng.below(3), &[rng.pick(&BYTES)]),
        2 => damage_line_count(rng, sheet, bytes),
        3 | 4 => damage_product(rng, sheet, bytes),
        5 => damage_member_order(rng, sheet, bytes),
        6 | 7 => damage_member(rng, sheet, bytes),
        8 => bytes.truncate(rng.below(bytes.len() + 1)),
        9 => drop(bytes.pop()),
        10 => {
            let more = rng.pick(&[1, 2, 12, 13, 300]);
            bytes.extend(rng.bytes(more));
        }
        _ => damage_bytes(rng, bytes),
    }
}

/// A line more or less in the header than there are.
fn damage_line_count(rng: &mut Rng, sheet: &Sheet, bytes: &mut [u8]) {
    let lines = sheet.lines.len() as u8;
    let counts = [lines.wrapping_add(1), lines.wrapping_sub(1)];
    put(bytes, HEADER - 1, &[rng.pick(&counts)]);
}

/// Where a random line starts in the file of a sheet, and how many members it has; none where there is no line.
fn random_line(rng: &mut Rng, sheet: &Sheet) -> Option<(usize, usize)> {
    let count =
        |line: &account::sheet::Line| (line.nodes.count_ones() + line.links.count_ones()) as usize;
    let chosen = rng.below(sheet.lines.len() + 1);
    let line = sheet.lines.get(chosen)?;
    let before = sheet.lines[..chosen].iter();
    let start = before.map(|line| MEMBERS + 2 * count(line)).sum::<usize>();
    Some((HEADER + start, count(line)))
}

/// A product above 10^9: by one, by little, by all of 2^32, 2^64 or 2^96, or one number that was changed.
fn damage_product(rng: &mut Rng, sheet: &Sheet, bytes: &mut [u8]) {
    let Some((start, _)) = random_line(rng, sheet) else {
        return;
    };
    let above = [
        [1_000_000_001, 1, 1],
        [1, 1, 1_000_000_001],
        [1 << 16, 1, 1 << 16],
        [1 << 31, 1 << 31, 1 << 2],
        [787, 19_950_191, 1_174_891_961],
        [u32::MAX, u32::MAX, 1],
        [u32::MAX; 3],
        next_to_limit(rng, 1),
    ];
    if rng.one_in(3) {
        let number = rng.pick(&[0, 1, 1_000_000_000, 1_000_000_001, u32::MAX]);
        return put(bytes, start + 4 * rng.below(3), &number.to_le_bytes());
    }
    let numbers = rng.pick(&above).map(u32::to_le_bytes).concat();
    put(bytes, start, &numbers);
}

/// Two members that follow one another, exchanged, or the first of them twice.
fn damage_member_order(rng: &mut Rng, sheet: &Sheet, bytes: &mut [u8]) {
    let Some((start, count @ 2..)) = random_line(rng, sheet) else {
        return;
    };
    let at = start + MEMBERS + 2 * rng.below(count - 1);
    let Some(&[kind, number, next_kind, next_number]) = bytes.get(at..at + 4) else {
        return;
    };
    match rng.one_in(2) {
        true => put(bytes, at, &[next_kind, next_number, kind, number]),
        false => put(bytes, at + 2, &[kind, number]),
    }
}

/// A member's kind or number, or the count of members.
fn damage_member(rng: &mut Rng, sheet: &Sheet, bytes: &mut [u8]) {
    let Some((start, count)) = random_line(rng, sheet) else {
        return;
    };
    let member = start + MEMBERS + 2 * rng.below(count + 1);
    let numbers = [sheet.nodes as u8, sheet.links as u8, rng.pick(&BYTES)];
    match rng.below(3) {
        0 => put(bytes, start + MEMBER_COUNT, &[rng.pick(&BYTES)]),
        1 => put(bytes, member, &[rng.pick(&[0, 1, 2, 255])]),
        _ => put(bytes, member + 1, &[rng.pick(&numbers)]),
    }
}
