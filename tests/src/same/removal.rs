//! Blocked clause elimination.
use super::index::{mark_all, Index, Live};
use super::table::Table;
use super::Refusal;

/// One sweep: each clause that is live and blocked at its turn goes on the stack at once. Answers the new count.
fn sweep(table: &Table, index: &Index, live: &mut Live, stack: &mut [u32], mut count: usize) -> usize {
    for k in 1..=table.m {
        if let Some(l) = index.turn_of(table, live, k) {
            live[k] = false;
            stack[2 * count] = k as u32;
            stack[2 * count + 1] = l as u32;
            count += 1;
        }
    }
    count
}

/// Elimination from an empty stack, in sweeps until one removes nothing: the count of removals.
pub fn eliminate(n: usize, m: usize, lits: &[u16], offs: &[u32], stack: &mut [u32]) -> Result<usize, Refusal> {
    let table = Table { n, m, lits, offs };
    if !table.is_sound() {
        return Err(Refusal::BadTable);
    }
    if stack.len() < 2 * m {
        return Err(Refusal::NoRoom);
    }
    let mut live = [false; 4001];
    mark_all(m, &mut live);
    let mut index = Index::new();
    index.enter(&table);
    let mut count = 0;
    loop {
        let made = sweep(&table, &index, &mut live, stack, count);
        if made == count {
            return Ok(count);
        }
        count = made;
    }
}
