//! Saved forms, good and damaged.

use super::inputs::{draft, Draft, SMALL_SHAPES};
use super::known::{self, K2};
use super::places;
use super::Compare;
use crate::random::Random;
use crate::second::removal::eliminate;
use crate::second::saved::{self, field};
use crate::second::Entry;

/// The fields of a right form.
fn fields(form: &[u8]) -> Vec<Vec<u8>> {
    let mut fields = Vec::new();
    let mut at = 0;
    while at < form.len() {
        let end = at + 3 + usize::from(u16::from_be_bytes([form[at + 1], form[at + 2]]));
        fields.push(form[at..end].to_vec());
        at = end;
    }
    fields
}

/// The bases that are damaged in every place.
fn bases() -> Vec<Vec<u8>> {
    let k6 = Draft::of(1, &[&[1, -1], &[1], &[-1]]);
    let empty = Draft::of(0, &[]);
    let one_empty = Draft::of(0, &[&[]]);
    vec![
        K2.to_vec(),
        saved::form(&k6.book(), &[Entry { clause: 1, literal: 1 }]),
        saved::form(&empty.book(), &[]),
        saved::form(&one_empty.book(), &[]),
        saved::form(&known::k1().book(), &[]),
    ]
}

pub fn places() -> usize {
    places::count(&bases())
}

/// At one place of one base: the form cut there, each byte put in, each byte in place of the one that stands there, and bytes left out.
pub fn at_each_place(compare: &mut Compare, case: usize) {
    let (base, case) = places::find(bases(), case);
    places::edit(&base, case, |form| {
        compare.read_saved(form);
    });
    for end in case + 1..=base.len().min(case + 4) {
        let mut form = base.clone();
        form.drain(case..end);
        compare.read_saved(&form);
    }
}

pub fn field_cases() -> usize {
    bases().len()
}

/// Each field of one base dropped, doubled and exchanged with each other; each number of each field changed; each field longer or shorter.
pub fn at_each_field(compare: &mut Compare, case: usize) {
    let base = fields(&bases().swap_remove(case));
    for at in 0..base.len() {
        let mut form = base.clone();
        form.remove(at);
        compare.read_saved(&form.concat());
        for other in 0..base.len() {
            let mut form = base.clone();
            form.insert(other, base[at].clone());
            compare.read_saved(&form.concat());
            form = base.clone();
            form.swap(at, other);
            compare.read_saved(&form.concat());
            form = base.clone();
            form[other] = base[at].clone();
            compare.read_saved(&form.concat());
        }
        for tag in 0..=255 {
            let mut form = base.clone();
            form[at][0] = tag;
            compare.read_saved(&form.concat());
        }
        let numbers: Vec<usize> = base[at][3..]
            .chunks_exact(2)
            .map(|pair| usize::from(u16::from_be_bytes([pair[0], pair[1]])))
            .collect();
        let tag = base[at][0];
        for index in 0..numbers.len() {
            for value in (0..=14).chain([2_000, 2_001, 4_000, 4_001, 4_002, 16_000, 16_001, 32_768, 65_535]) {
                let mut changed = numbers.clone();
                changed[index] = value;
                let mut form = base.clone();
                form[at] = field(tag, &changed);
                compare.read_saved(&form.concat());
                // Two numbers of one field: what comes first in a field decides.
                for second in index + 1..numbers.len() {
                    for value in [0, 1, 2, 3, 4, 10, 11, 12, 2_001, 4_001, 16_001, 65_535] {
                        let mut twice = changed.clone();
                        twice[second] = value;
                        form[at] = field(tag, &twice);
                        compare.read_saved(&form.concat());
                    }
                }
                // One more number, and one fewer.
                changed.push(value);
                form[at] = field(tag, &changed);
                compare.read_saved(&form.concat());
                changed.remove(index);
                changed.pop();
                form[at] = field(tag, &changed);
                compare.read_saved(&form.concat());
            }
        }
        // A length that says other than what is there.
        for length in (0..=20).chain([255, 256, 2_002, 2_004, 2_006, 32_768, 65_534, 65_535]) {
            let mut form = base.clone();
            form[at][1..3].copy_from_slice(&(length as u16).to_be_bytes());
            compare.read_saved(&form.concat());
            // The same, with the bytes there.
            form[at].resize(3 + length, 0);
            compare.read_saved(&form.concat());
        }
    }
    for more in 0..=255 {
        let mut form = base.concat();
        form.push(more);
        compare.read_saved(&form);
    }
}

/// One edit of a form.
fn edit(random: &mut Random, form: &mut Vec<u8>) {
    let at = random.below(form.len() + 1);
    match random.below(10) {
        0 => form.truncate(at),
        1 => form.insert(at, random.below(256) as u8),
        2 if at < form.len() => form[at] = random.below(256) as u8,
        3 if at < form.len() => form[at] = form[at].wrapping_add(1),
        4 if at < form.len() => form[at] = form[at].wrapping_sub(1),
        5 if at < form.len() => {
            form.remove(at);
        }
        6 => {
            let more = random.between(1, 8);
            form.extend(random.u8s(more));
        }
        _ => {
            // A number to a second place: clause numbers, codes and counts change hands.
            if form.len() > 6 {
                let (from, to) = (random.below(form.len() - 1), random.below(form.len() - 1));
                let pair = [form[from], form[from + 1]];
                form[to..to + 2].copy_from_slice(&pair);
            }
        }
    }
}

/// One edit of the fields of a form, which stay whole: so the faults that come late in a field are met too.
fn edit_fields(random: &mut Random, form: &mut Vec<u8>) {
    let mut parts = fields(form);
    let at = random.below(parts.len());
    match random.below(8) {
        0 => {
            parts.remove(at);
        }
        1 => {
            let part = parts[at].clone();
            let to = random.below(parts.len() + 1);
            parts.insert(to, part);
        }
        2 => {
            let other = random.below(parts.len());
            parts.swap(at, other);
        }
        3 if parts[at].len() > 4 => {
            // The last number is left out, or doubled.
            let mut numbers: Vec<usize> = parts[at][3..]
                .chunks_exact(2)
                .map(|pair| usize::from(u16::from_be_bytes([pair[0], pair[1]])))
                .collect();
            if random.chance(1, 2) {
                numbers.pop();
            } else {
                let last = numbers[numbers.len() - 1];
                numbers.push(last ^ random.below(2));
            }
            parts[at] = field(parts[at][0], &numbers);
        }
        _ if parts[at].len() > 4 => {
            let len = (parts[at].len() - 3) / 2;
            let to = 3 + 2 * random.below(len);
            let old = u16::from_be_bytes([parts[at][to], parts[at][to + 1]]);
            let new = match random.below(4) {
                0 => old.wrapping_add(1),
                1 => old.wrapping_sub(1),
                2 => old ^ 1,
                _ => random.below(12) as u16,
            };
            parts[at][to..to + 2].copy_from_slice(&new.to_be_bytes());
        }
        _ => {}
    }
    *form = parts.concat();
}

/// Random forms with no, one or some edits.
pub fn run(compare: &mut Compare, case: usize) {
    let random = &mut compare.random;
    let shape = random.below(SMALL_SHAPES);
    let drawn = draft(random, shape);
    let book = drawn.book();
    let mut entries = eliminate(&book);
    if random.chance(1, 4) {
        random.shuffle(&mut entries);
    }
    if random.chance(1, 3) {
        let count = random.below(entries.len() + 1);
        entries.truncate(count);
    }
    let mut form = saved::form(&book, &entries);
    for _ in 0..*random.pick(&[0, 1, 1, 1, 2]) {
        if fields_are_whole(&form) && random.chance(1, 2) {
            edit_fields(random, &mut form);
        } else {
            edit(random, &mut form);
        }
    }
    let left = compare.read_saved(&form);
    if case % 64 == 0 {
        let (lits_len, offs_len, stack_len) = *compare.random.pick(&[
            (15_999, 4_001, 8_000),
            (16_000, 4_000, 8_000),
            (16_000, 4_001, 7_999),
            (0, 0, 0),
            (20_000, 5_000, 9_000),
        ]);
        compare.read_saved_into(&form, lits_len, offs_len, stack_len);
    }
    if left.done() {
        // What was read is written as it was.
        let (n, m, count) = (left.said.cells[1], left.said.cells[2], left.said.cells[3]);
        let table = super::Table {
            n,
            m,
            lits: left.lits,
            offs: left.offs,
        };
        let again = compare.write_saved(&table, &left.stack, count, form.len());
        compare.demand(
            again.done() && again.out == form,
            "a form that was read is written again byte by byte",
        );
    }
}

fn fields_are_whole(form: &[u8]) -> bool {
    let mut at = 0;
    while at < form.len() {
        if form.len() < at + 3 {
            return false;
        }
        at += 3 + usize::from(u16::from_be_bytes([form[at + 1], form[at + 2]]));
    }
    at == form.len() && at > 0
}

/// The first `len` codes: each variable beside its negation.
fn codes(len: usize) -> Vec<usize> {
    (2..2 + len).collect()
}

fn live(number: usize, codes: &[usize]) -> Vec<u8> {
    let mut numbers = vec![number];
    numbers.extend(codes);
    field(0x02, &numbers)
}

fn removed(number: usize, blocking: usize, codes: &[usize]) -> Vec<u8> {
    let mut numbers = vec![number, blocking];
    numbers.extend(codes);
    field(0x03, &numbers)
}

fn header(n: usize, m: usize, literals: usize, removals: usize) -> Vec<u8> {
    field(0x01, &[n, m, literals, removals])
}

const END: [u8; 3] = [0x7f, 0, 0];

/// Forms at the limits.
fn limit_forms() -> Vec<Vec<u8>> {
    let mut forms: Vec<Vec<Vec<u8>>> = Vec::new();
    let end = || END.to_vec();
    // The header's numbers, alone and together: limits come before the rest of the field.
    for n in [0, 1_999, 2_000, 2_001, 65_535] {
        for (m, removals) in [
            (0, 0),
            (0, 1),
            (1, 0),
            (1, 1),
            (1, 2),
            (4_000, 4_000),
            (4_000, 4_001),
            (4_001, 0),
            (4_001, 4_002),
            (65_535, 65_535),
        ] {
            for literals in [0, 1, 15_999, 16_000, 16_001, 65_535] {
                forms.push(vec![header(n, m, literals, removals), end()]);
                forms.push(vec![header(n, m, literals, removals), live(1, &[]), end()]);
                forms.push(vec![header(n, m, literals, removals), live(1, &[2]), end()]);
                forms.push(vec![header(n, m, literals, removals), removed(1, 2, &[2]), end()]);
            }
        }
    }
    // Codes at 2n+1.
    for n in [0, 1, 2, 1_999, 2_000] {
        for code in [0, 1, 2, 3, 2 * n, 2 * n + 1, 2 * n + 2, 2 * n + 3, 65_535] {
            forms.push(vec![header(n, 1, 1, 0), live(1, &[code]), end()]);
            forms.push(vec![header(n, 1, 1, 1), removed(1, code, &[code]), end()]);
            forms.push(vec![header(n, 1, 1, 1), removed(1, 2, &[code]), end()]);
        }
    }
    // Clauses of 1,000 literals and more, live and removed, with and without a fault that comes later in the field.
    for len in [999, 1_000, 1_001, 1_002, 32_765] {
        let sound = codes(len);
        let mut repeated = sound.clone();
        repeated[len - 1] = repeated[0];
        let mut wide = sound.clone();
        wide[0] = 65_535;
        for clause in [&sound, &repeated, &wide] {
            for number in [1, 0, 3] {
                forms.push(vec![header(2_000, 1, len.min(16_000), 0), live(number, clause), end()]);
                forms.push(vec![header(2_000, 1, len.min(16_000), 1), removed(number, 2, clause), end()]);
                forms.push(vec![header(2_000, 1, len.min(16_000), 1), removed(number, 1, clause), end()]);
            }
        }
        // An odd length comes before the limits.
        let mut odd = live(1, &sound);
        let length = (odd.len() - 3 + 1) as u16;
        odd[1..3].copy_from_slice(&length.to_be_bytes());
        odd.push(0);
        forms.push(vec![header(2_000, 1, len.min(16_000), 0), odd, end()]);
        // The field's end is not there: whole comes before all.
        let mut cut = live(1, &sound);
        cut.pop();
        forms.push(vec![header(2_000, 1, len.min(16_000), 0), cut]);
    }
    // 16,000 literals in all and more; the header says 16,000 at most.
    for last in [999, 1_000] {
        for extra in [0, 1, 2] {
            for removals in [0, 1, 17] {
                let total = 15_000 + last + extra;
                let mut form = vec![header(2_000, 17, total.min(16_000), removals)];
                for number in 1..=17 {
                    let len = match number {
                        16 => last,
                        17 => extra,
                        _ => 1_000,
                    };
                    if number > 17 - removals {
                        form.push(removed(number, 2, &codes(len)));
                    } else {
                        form.push(live(number, &codes(len)));
                    }
                }
                form.push(end());
                forms.push(form.clone());
                // The last clause's number is wrong as well: limits first.
                form[17] = if removals > 0 {
                    removed(1, 2, &codes(extra))
                } else {
                    live(16, &codes(extra))
                };
                forms.push(form);
            }
        }
    }
    // 4,000 clauses, live and removed; one field too few and one too many.
    for given in [3_999, 4_000, 4_001] {
        let mut form = vec![header(1, 4_000, 4_000, 0)];
        form.extend((1..=given).map(|number| live(number, &[2 + number % 2])));
        form.push(end());
        forms.push(form);
        let mut form = vec![header(1, 4_000, 4_000, 4_000)];
        form.extend((1..=given).map(|number| removed(4_001 - number, 2, &[2])));
        form.push(end());
        forms.push(form);
        let mut form = vec![header(1, 4_000, 4_000, 4_000)];
        form.extend((1..=given).map(|number| removed(number, 2 + (number == 4_000) as usize, &[2 + (number == 4_000) as usize])));
        form.push(end());
        forms.push(form);
    }
    forms.iter().map(|form| form.concat()).collect()
}

/// How many forms of the limits make one case.
const IN_A_CASE: usize = 20;

thread_local! {
    static LIMIT_FORMS: Vec<Vec<u8>> = limit_forms();
}

pub fn limit_cases() -> usize {
    (LIMIT_FORMS.with(|forms| forms.len()) + IN_A_CASE - 1) / IN_A_CASE
}

pub fn at_the_limits(compare: &mut Compare, case: usize) {
    let forms: Vec<Vec<u8>> = LIMIT_FORMS.with(|forms| forms.iter().skip(case * IN_A_CASE).take(IN_A_CASE).cloned().collect());
    for form in &forms {
        compare.read_saved(form);
        let mut longer = form.clone();
        longer.push(0);
        compare.read_saved(&longer);
        compare.read_saved(&form[..form.len() - 1]);
    }
}
