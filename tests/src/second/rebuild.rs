//! Rebuild (source document 004, section 4): values that satisfy the live clauses become values that satisfy the book.

use super::{refuse, Book, Clause, Entry, Refusal};

/// Whether a clause is false: each of its literals is false under the values. "Values are one byte for each variable, 0 or 1."
pub fn is_false(clause: &Clause, values: &[u8]) -> bool {
    clause.set.iter().all(|literal| {
        let value = values[literal.unsigned_abs() as usize - 1];
        if *literal > 0 {
            value == 0
        } else {
            value == 1
        }
    })
}

/// The rebuilt values; `values` has at least n bytes. "rebuild 6, 8, 9": 6 is tested before.
pub fn rebuild(book: &Book, stack: &[Entry], values: &[u8]) -> Result<Vec<u8>, Refusal> {
    let mut values: Vec<u8> = values[..book.variables].to_vec();
    // 8: "one of the first n bytes is neither 0 nor 1", place "lowest such variable"
    for (index, &value) in values.iter().enumerate() {
        if value > 1 {
            return refuse(8, index + 1, "a value neither 0 nor 1");
        }
    }
    // 9: "a live clause is false under the values", place "lowest such clause"
    for number in book.live(stack) {
        if is_false(&book.clauses[&number], &values) {
            return refuse(9, number, "a live clause that is false");
        }
    }
    // "walks the stack from newest to oldest. If the entry's clause is false under the present values, the variable of its blocking literal
    // is flipped; otherwise nothing happens."
    for entry in stack.iter().rev() {
        if is_false(&book.clauses[&entry.clause], &values) {
            let variable = entry.literal.unsigned_abs() as usize;
            values[variable - 1] = 1 - values[variable - 1];
        }
    }
    Ok(values)
}
