//! A lent stack: its room, its entries, and whether each was a right removal at its time.

use super::blocking::blocks;
use super::{code_of, literal_of, refuse, Book, Entry, Refusal};
use std::collections::BTreeSet;

/// "any other call with a stack needs 2m words". Refuses 3, place 0.
pub fn room(book: &Book, stack: &[u32]) -> Result<(), Refusal> {
    if stack.len() < 2 * book.clauses.len() {
        return refuse(3, 0, "a short stack");
    }
    Ok(())
}

/// The first `count` entries of a stack that has room. Refuses 5: "0 for the count, else the first bad entry, from 1".
pub fn entries_of(book: &Book, stack: &[u32], count: usize) -> Result<Vec<Entry>, Refusal> {
    // "the count is above m"
    if count > book.clauses.len() {
        return refuse(5, 0, "the count above m");
    }
    let mut entries = Vec::new();
    let mut named = BTreeSet::new();
    for place in 1..=count {
        // "two for each entry (clause number, literal code)"
        let clause = stack[2 * place - 2] as usize;
        let code = stack[2 * place - 1];
        // "an entry has a clause outside 1 to m"
        if clause < 1 || clause > book.clauses.len() {
            return refuse(5, place, "an entry's clause outside 1 to m");
        }
        // "a clause already named"
        if !named.insert(clause) {
            return refuse(5, place, "an entry's clause already named");
        }
        // "or a literal not in it"
        if !book.clauses[&clause].set.iter().any(|&literal| code_of(literal) == code) {
            return refuse(5, place, "an entry's literal not in its clause");
        }
        entries.push(Entry {
            clause,
            literal: literal_of(code),
        });
    }
    Ok(entries)
}

/// Tests the entries "from the oldest entry on". Refuses 6: "the literal doesn't block the clause among those live at that time", place the
/// entry.
pub fn check(book: &Book, entries: &[Entry]) -> Result<(), Refusal> {
    let mut live = book.numbers();
    for (index, entry) in entries.iter().enumerate() {
        if !blocks(book, &live, entry.clause, entry.literal) {
            return refuse(6, index + 1, "an entry that does not block");
        }
        live.remove(&entry.clause);
    }
    Ok(())
}
