//! What the program `shrink` prints for a text.

use super::removal::eliminate;
use super::text;

/// The whole output.
pub fn shrink(input: &[u8]) -> String {
    let book = match text::read(input) {
        // "A refusal prints `refused N at P`."
        Err(refusal) => return format!("refused {} at {}\n", refusal.number, refusal.place),
        Ok(book) => book,
    };
    let stack = eliminate(&book);
    let live = book.live(&stack);
    // "It prints `c removed R of M`, a line `c CLAUSE LITERAL` for each stack entry, oldest first"
    let mut output = format!("c removed {} of {}\n", stack.len(), book.clauses.len());
    for entry in &stack {
        output.push_str(&format!("c {} {}\n", entry.clause, entry.literal));
    }
    // "then a problem line with V and the live count, and the live clauses, rising, literals in stored order, ending in 0"
    output.push_str(&format!("p cnf {} {}\n", book.variables, live.len()));
    for number in &live {
        for literal in &book.clauses[number].stored {
            output.push_str(&format!("{} ", literal));
        }
        output.push_str("0\n");
    }
    output
}
