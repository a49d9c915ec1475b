//! Removal: elimination in sweeps, the question which clause can go next, and one removal by name.

use super::blocking::{blocks, first_blocking};
use super::{code_of, literal_of, refuse, Book, Entry, Refusal};

/// The stack that elimination leaves: "Eliminate starts from an empty stack".
pub fn eliminate(book: &Book) -> Vec<Entry> {
    let mut stack = Vec::new();
    let mut live = book.numbers();
    loop {
        let before = stack.len();
        // "A sweep goes through the clauses from 1 to the last."
        for clause in book.numbers() {
            if !live.contains(&clause) {
                continue;
            }
            // "A live clause that is blocked among the clauses live at its turn goes on the stack at once, with the first literal in its
            // stored order that blocks it."
            if let Some(literal) = first_blocking(book, &live, clause) {
                stack.push(Entry { clause, literal });
                live.remove(&clause);
            }
        }
        // "Sweeps repeat until one removes nothing."
        if stack.len() == before {
            return stack;
        }
    }
}

/// "the lowest live blocked clause with its first blocking literal, or none".
pub fn next_blocked(book: &Book, stack: &[Entry]) -> Option<Entry> {
    let live = book.live(stack);
    for &clause in &live {
        if let Some(literal) = first_blocking(book, &live, clause) {
            return Some(Entry { clause, literal });
        }
    }
    None
}

/// The entry of one removal, named by clause number and literal code. "removal 7, 6"; "The question and removal don't test old entries for
/// 6."
pub fn remove(book: &Book, stack: &[Entry], clause: u32, code: u32) -> Result<Entry, Refusal> {
    let clause = clause as usize;
    let live = book.live(stack);
    // "a removal names a clause outside 1 to m, one not live, or a literal not in it"
    if clause < 1 || clause > book.clauses.len() {
        return refuse(7, 0, "a removal's clause outside 1 to m");
    }
    if !live.contains(&clause) {
        return refuse(7, 0, "a removal's clause not live");
    }
    if !book.clauses[&clause].set.iter().any(|&literal| code_of(literal) == code) {
        return refuse(7, 0, "a removal's literal not in its clause");
    }
    // "the literal doesn't block the clause among those live at that time"; "for a removal call the clause number"
    let literal = literal_of(code);
    if !blocks(book, &live, clause, literal) {
        return refuse(6, clause, "a removal that does not block");
    }
    Ok(Entry { clause, literal })
}
