//! Damaged and random tables, stacks, names and values.

use super::inputs::{draft, stack_words, values_for, SMALL_SHAPES};
use super::{Compare, Table};
use crate::random::Random;
use crate::second::removal::eliminate;
use crate::second::{code_of, Entry};

/// Counts that are far too large in one way or another.
const HUGE: [usize; 10] = [
    usize::MAX,
    usize::MAX - 1,
    usize::MAX / 2,
    usize::MAX / 2 + 1,
    usize::MAX / 2 + 2,
    1 << 31,
    1 << 32,
    (1 << 32) + 1,
    1 << 16,
    65_537,
];

/// Damages a table in one place.
fn damage_table(random: &mut Random, table: &mut Table) {
    let (n, m) = (table.n, table.m);
    let total = table.offs[m] as usize;
    match random.below(20) {
        0 => table.n = *random.pick(&HUGE),
        1 => table.m = *random.pick(&HUGE),
        2 => table.n = *random.pick(&[2_000, 2_001, 2_002, 32_768, 32_767, 0, n.saturating_sub(1), n + 1]),
        3 => table.m = *random.pick(&[4_000, 4_001, 4_002, 0, m.saturating_sub(1), m + 1, m + 2]),
        4 => table.offs.truncate(m),
        5 => table.offs.truncate(m + 1),
        6 => {
            let len = random.below(m + 2);
            table.offs.truncate(len);
        }
        7 => table.offs[0] = *random.pick(&[1, 2, u32::MAX, 1 << 16]),
        8 | 9 => {
            // One offset up or down.
            let k = random.below(m + 1);
            let old = table.offs[k];
            table.offs[k] = *random.pick(&[
                old.wrapping_sub(1),
                old + 1,
                old + 2,
                0,
                u32::MAX,
                old.wrapping_add(1 << 16),
                total as u32,
            ]);
        }
        10 => table.offs[m] = *random.pick(&[16_000, 16_001, 15_999, u32::MAX, 1 << 31, total as u32 + 1, table.lits.len() as u32]),
        11 => table.lits.truncate(total.saturating_sub(1)),
        12 => table.lits.truncate(total),
        13 => {
            let len = random.below(total + 1);
            table.lits.truncate(len);
        }
        14 | 15 if total > 0 => {
            let at = random.below(total);
            table.lits[at] = *random.pick(&[0, 1, 2, 2 * n as u16 + 1, 2 * n as u16 + 2, 2 * n as u16 + 3, u16::MAX, 1 << 15]);
        }
        16 | 17 if total > 1 => {
            // A literal to a second place, mostly of the same clause.
            let at = random.below(total - 1);
            table.lits[at + 1] = table.lits[at];
        }
        18 if total > 0 => {
            let (one, other) = (random.below(total), random.below(total));
            table.lits[one] = table.lits[other];
        }
        _ => {}
    }
}

/// A table of random cells, of which a few are sound.
fn random_table(random: &mut Random) -> Table {
    let n = random.below(6);
    let m = random.below(6);
    let lits_len = random.below(12);
    let offs_len = m + random.below(4);
    let lits = (0..lits_len).map(|_| random.below(2 * n + 3) as u16).collect();
    let mut offs: Vec<u32> = (0..offs_len).map(|_| random.below(lits_len + 2) as u32).collect();
    if random.chance(5, 6) {
        offs.sort_unstable();
    }
    if random.chance(5, 6) {
        if let Some(first) = offs.first_mut() {
            *first = 0;
        }
    }
    Table { n, m, lits, offs }
}

/// Damages a stack or its count in one place.
fn damage_stack(random: &mut Random, m: usize, words: &mut Vec<u32>, count: &mut usize) {
    let entries = words.len() / 2;
    let at = if *count > 0 {
        random.below((*count).min(entries).max(1))
    } else {
        0
    };
    match random.below(14) {
        0 => *count = m + 1,
        1 => *count = *random.pick(&HUGE),
        2 => *count = random.below(m + 3),
        3 => words.truncate((2 * m).saturating_sub(1)),
        4 => {
            let len = random.below(2 * m + 1);
            words.truncate(len);
        }
        5 if at < entries => words[2 * at] = *random.pick(&[0, m as u32, m as u32 + 1, u32::MAX, 1 << 31]),
        6 if at < entries => words[2 * at] = words[2 * at].wrapping_add(1 << 16),
        7 if at < entries => words[2 * at + 1] = *random.pick(&[0, 1, 2, 3, u32::MAX, 4_001, 4_002]),
        8 if at < entries => words[2 * at + 1] = words[2 * at + 1].wrapping_add(1 << 16),
        9 if at < entries => words[2 * at + 1] ^= 1,
        10 | 11 if at < entries => {
            let other = random.below(at + 1);
            words[2 * at] = words[2 * other];
            words[2 * at + 1] = words[2 * other + 1];
        }
        12 if at < entries => {
            let other = random.below(at + 1);
            words.swap(2 * at, 2 * other);
            words.swap(2 * at + 1, 2 * other + 1);
        }
        _ => {}
    }
}

/// Damages values in one place.
fn damage_values(random: &mut Random, n: usize, values: &mut Vec<u8>) {
    match random.below(6) {
        0 => values.truncate(n.saturating_sub(1)),
        1 => {
            let len = random.below(n + 1);
            values.truncate(len);
        }
        2 | 3 if n > 0 => {
            let at = random.below(n.min(values.len()).max(1));
            if at < values.len() {
                values[at] = random.between(2, 255) as u8;
            }
        }
        4 if !values.is_empty() => {
            let at = random.below(values.len());
            values[at] ^= 1;
        }
        _ => {}
    }
}

pub fn run(compare: &mut Compare, case: usize) {
    let random = &mut compare.random;
    let shape = random.below(SMALL_SHAPES);
    let drawn = draft(random, shape);
    let (n, m) = (drawn.variables, drawn.clauses.len());
    let book = drawn.book();
    let mut entries: Vec<Entry> = eliminate(&book);
    if random.chance(1, 2) {
        // A stack of entries that name a literal of their clause, and need not block.
        let mut numbers: Vec<usize> = (1..=m).filter(|k| !drawn.clauses[k - 1].is_empty()).collect();
        random.shuffle(&mut numbers);
        entries = numbers
            .iter()
            .map(|&clause| Entry {
                clause,
                literal: *random.pick(&drawn.clauses[clause - 1]),
            })
            .collect();
    }
    let mut count = random.below(entries.len() + 1);
    let live = book.live(&entries[..count]);
    let mut values = values_for(random, &book, &live, 30);
    let more = random.below(3);
    values.extend(random.u8s(more));
    let more = random.below(3);
    let mut words = stack_words(random, &entries[..count], 2 * (m - count) + more);
    let mut table = drawn.loose_table(random);

    // What is damaged: the table, the stack, the values, or several of them.
    let parts = case % 8;
    if case % 16 == 15 {
        table = random_table(random);
    } else if parts & 1 != 0 {
        damage_table(random, &mut table);
    }
    if parts & 2 != 0 {
        damage_stack(random, m, &mut words, &mut count);
    }
    if parts & 4 != 0 {
        damage_values(random, n, &mut values);
    }

    compare.is_sound(&table);
    for k in [0, 1, m, m + 1] {
        compare.clause_literals(&table, k);
    }
    let k = *compare.random.pick(&HUGE);
    compare.clause_literals(&table, k);
    let stack_len = words.len();
    compare.eliminate(&table, stack_len);
    compare.next_blocked(&table, &words, count);
    compare.check_stack(&table, &words, count);
    compare.rebuild(&table, &words, count, &values);
    let out_len = compare.random.below(200);
    compare.write_saved(&table, &words, count, out_len);
    compare.write_saved(&table, &words, count, 4_000);
    for _ in 0..4 {
        let random = &mut compare.random;
        let clause = random.between(0, m + 1);
        let mut literal = random.below(2 * n + 4) as u32;
        if clause >= 1 && clause <= m && !drawn.clauses[clause - 1].is_empty() {
            literal = code_of(*random.pick(&drawn.clauses[clause - 1]));
        }
        let mut clause = clause as u32;
        // A name that is right in its low bits only, or not at all.
        match random.below(8) {
            0 => clause = clause.wrapping_add(*random.pick(&[1 << 16, 1 << 31, 1 << 12])),
            1 => literal = literal.wrapping_add(*random.pick(&[1 << 16, 1 << 31, 1 << 17])),
            2 => literal = *random.pick(&[0, 1, u32::MAX, 65_535, 65_536]),
            3 => clause = *random.pick(&[0, u32::MAX, 4_000, 4_001]),
            _ => {}
        }
        compare.remove(&table, &words, count, clause, literal);
    }
}
