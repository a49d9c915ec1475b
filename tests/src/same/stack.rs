//! A lent stack: its entries read into marks of the live clauses, and the stack check.
use super::index::{mark_all, Index, Live};
use super::table::Table;
use super::Refusal;

/// The entries of a lent stack, oldest first.
pub fn entries(stack: &[u32], count: usize) -> impl DoubleEndedIterator<Item = (u32, u32)> + ExactSizeIterator + '_ {
    stack[..2 * count].chunks_exact(2).map(|pair| (pair[0], pair[1]))
}

/// Whether an entry names a live clause and a literal of it.
fn entry_names(table: &Table, live: &Live, clause: u32, literal: u32) -> bool {
    let k = clause as usize;
    k < live.len() && live[k] && table.row(k).iter().any(|&x| x as u32 == literal)
}

/// The tests that come first in every call on a table with a stack. Where all pass, what is live after the entries is marked.
pub fn open_stack(table: &Table, stack: &[u32], count: usize, room: bool, live: &mut Live) -> Result<(), Refusal> {
    if !table.is_sound() {
        return Err(Refusal::BadTable);
    }
    if stack.len() < 2 * table.m || !room {
        return Err(Refusal::NoRoom);
    }
    if count > table.m {
        return Err(Refusal::BadStack(0));
    }
    mark_all(table.m, live);
    for (i, (clause, literal)) in entries(stack, count).enumerate() {
        if !entry_names(table, live, clause, literal) {
            return Err(Refusal::BadStack(i + 1));
        }
        live[clause as usize] = false;
    }
    Ok(())
}

/// The test of every entry, oldest first: its literal blocks its clause among those live at that time. The table and the stack passed the tests that
/// come first; where all pass here too, what is live after the entries is marked.
pub fn all_blocking(table: &Table, stack: &[u32], count: usize, live: &mut Live) -> Result<(), Refusal> {
    let mut index = Index::new();
    index.enter(table);
    mark_all(table.m, live);
    for (i, (clause, literal)) in entries(stack, count).enumerate() {
        let k = clause as usize;
        if !index.blocks(table, live, k, literal as u16) {
            return Err(Refusal::NotBlocking(i + 1));
        }
        live[k] = false;
    }
    Ok(())
}

/// The stack check.
pub fn check_stack(n: usize, m: usize, lits: &[u16], offs: &[u32], stack: &[u32], count: usize) -> Result<(), Refusal> {
    let table = Table { n, m, lits, offs };
    let mut live = [false; 4001];
    open_stack(&table, stack, count, true, &mut live)?;
    all_blocking(&table, stack, count, &mut live)
}
