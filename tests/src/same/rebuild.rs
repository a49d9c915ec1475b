//! Rebuild: values for the remaining rules turned back into values for the whole book.
use super::index::Live;
use super::stack::{all_blocking, entries, open_stack};
use super::table::Table;
use super::Refusal;

/// Whether the literal is true under the values.
fn value_of(vals: &[u8], l: u16) -> bool {
    (vals[(l / 2) as usize - 1] == 1) == (l % 2 == 0)
}

/// Whether some literal of the clause is true under the values.
fn is_true(c: &[u16], vals: &[u8]) -> bool {
    c.iter().any(|&l| value_of(vals, l))
}

/// The lowest live clause that is false under the values.
fn false_clause(table: &Table, live: &Live, vals: &[u8]) -> Option<usize> {
    (1..=table.m).find(|&k| live[k] && !is_true(table.row(k), vals))
}

/// The walk from the newest entry to the oldest: where an entry's clause is false, its literal's variable is flipped.
fn walk_back(table: &Table, stack: &[u32], count: usize, vals: &mut [u8]) {
    for (clause, literal) in entries(stack, count).rev() {
        if !is_true(table.row(clause as usize), vals) {
            vals[literal as usize / 2 - 1] ^= 1;
        }
    }
}

/// Rebuilds the values in place.
pub fn rebuild(n: usize, m: usize, lits: &[u16], offs: &[u32], stack: &[u32], count: usize, vals: &mut [u8]) -> Result<(), Refusal> {
    let table = Table { n, m, lits, offs };
    let mut live = [false; 4001];
    open_stack(&table, stack, count, n <= vals.len(), &mut live)?;
    all_blocking(&table, stack, count, &mut live)?;
    if let Some(i) = vals[..n].iter().position(|&v| v > 1) {
        return Err(Refusal::BadValues(i + 1));
    }
    if let Some(k) = false_clause(&table, &live, vals) {
        return Err(Refusal::NotModel(k));
    }
    walk_back(&table, stack, count, vals);
    Ok(())
}
