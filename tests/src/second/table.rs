//! A lent table: whether it is sound, the book in it, and a clause's literals handed out.

use super::{code_of, literal_of, refuse, Book, Literal, Refusal, CLAUSES, CLAUSE_LITERALS, LITERALS, VARIABLES};
use std::collections::BTreeSet;

/// Why a table is not sound, or nothing if it is. Each test is one clause of "A table is sound if ...", in document 01's order.
pub fn fault(n: usize, m: usize, lits: &[u16], offs: &[u32]) -> Option<&'static str> {
    // "n is at most 2,000"
    if n > VARIABLES {
        return Some("n over 2,000");
    }
    // "m at most 4,000"
    if m > CLAUSES {
        return Some("m over 4,000");
    }
    // "there are at least m+1 offsets"
    if offs.len() < m + 1 {
        return Some("too few offsets");
    }
    // "the first is 0"
    if offs[0] != 0 {
        return Some("the first offset is not 0");
    }
    // "none is smaller than the one before"
    for k in 1..=m {
        if offs[k] < offs[k - 1] {
            return Some("an offset smaller than the one before");
        }
    }
    // "offset m is at most 16,000"
    if offs[m] as usize > LITERALS {
        return Some("the last offset over 16,000");
    }
    // "and within the literal buffer"
    if offs[m] as usize > lits.len() {
        return Some("the last offset beyond the literals");
    }
    for k in 1..=m {
        let clause = &lits[offs[k - 1] as usize..offs[k] as usize];
        // "each clause has at most 1,000 literals"
        if clause.len() > CLAUSE_LITERALS {
            return Some("a clause over 1,000 literals");
        }
        let mut met = BTreeSet::new();
        for &code in clause {
            // "each code is from 2 to 2n+1"
            if (code as usize) < 2 || code as usize > 2 * n + 1 {
                return Some("a code outside 2 to 2n+1");
            }
            // "no literal stands twice in a clause"
            if !met.insert(code) {
                return Some("a literal twice in a clause");
            }
        }
    }
    None
}

/// The book in a lent table. Refuses 4: "the lent table isn't sound", place 0.
pub fn book_of(n: usize, m: usize, lits: &[u16], offs: &[u32]) -> Result<Book, Refusal> {
    if let Some(why) = fault(n, m, lits, offs) {
        return refuse(4, 0, why);
    }
    // "Clause k is the literals from offset k-1 up to offset k, counting offsets from 0."
    let clauses: Vec<Vec<Literal>> = (1..=m)
        .map(|k| {
            lits[offs[k - 1] as usize..offs[k] as usize]
                .iter()
                .map(|&code| literal_of(u32::from(code)))
                .collect()
        })
        .collect();
    Ok(Book::of(n, &clauses))
}

/// Where the stretch of clause k stands: its start and length. "for an unsound table or a number outside 1 to m the stretch is empty, with
/// no refusal"; the interface gives start 0 for each empty stretch.
pub fn stretch(n: usize, m: usize, lits: &[u16], offs: &[u32], k: usize) -> (usize, usize) {
    if fault(n, m, lits, offs).is_some() || k < 1 || k > m || offs[k] == offs[k - 1] {
        return (0, 0);
    }
    (offs[k - 1] as usize, (offs[k] - offs[k - 1]) as usize)
}

/// The literals and offsets of a book, one clause behind the other.
pub fn layout(book: &Book) -> (Vec<u16>, Vec<u32>) {
    let mut lits = Vec::new();
    let mut offs = vec![0];
    for clause in book.clauses.values() {
        lits.extend(clause.stored.iter().map(|&literal| code_of(literal) as u16));
        offs.push(lits.len() as u32);
    }
    (lits, offs)
}
