//! The reader of DIMACS text, from document 01's "The text" and "Refusal numbers".

use super::{refuse, Book, Literal, Refusal, CLAUSES, CLAUSE_LITERALS, LITERALS, TEXT_BYTES, VARIABLES};
use std::collections::BTreeSet;

/// The book in a text. "then 2 for a long text, then the first fault by offset": a reader that goes forward and stops at its first fault.
pub fn read(text: &[u8]) -> Result<Book, Refusal> {
    // "A text is at most 65,536 bytes."; "0 for a long text"
    if text.len() > TEXT_BYTES {
        return refuse(2, 0, "a text over 65,536 bytes");
    }
    let start = comments(text)?;
    let problem = problem_line(text, start)?;
    clauses(text, &problem)
}

fn is_blank(byte: u8) -> bool {
    byte == b' ' || byte == b'\t'
}

/// "spaces, tabs, CR or LF": "those four bytes".
fn is_one_of_four(byte: u8) -> bool {
    is_blank(byte) || byte == b'\r' || byte == b'\n'
}

/// A line from `start`: its bytes end at `end`, the next line begins at `next`. "A line ends at LF, CR LF or the end of the text."
struct Line {
    end: usize,
    next: usize,
}

fn line(text: &[u8], start: usize) -> Line {
    for at in start..text.len() {
        if text[at] == b'\n' {
            return Line { end: at, next: at + 1 };
        }
        if text[at] == b'\r' && text.get(at + 1) == Some(&b'\n') {
            return Line { end: at, next: at + 2 };
        }
    }
    Line {
        end: text.len(),
        next: text.len(),
    }
}

/// Where the line that begins with `p` begins.
fn comments(text: &[u8]) -> Result<usize, Refusal> {
    let mut start = 0;
    while start < text.len() {
        if text[start] == b'p' {
            return Ok(start);
        }
        // "Before the problem line stand only lines that are `c` alone or begin with `c` and a blank (space or tab)"
        let line = line(text, start);
        let bytes = &text[start..line.end];
        let right_comment = bytes == b"c" || (bytes.len() >= 2 && bytes[0] == b'c' && is_blank(bytes[1]));
        if !right_comment {
            // "Before the problem line, a line that begins with neither `p` nor a right comment is a fault at its first byte."
            return refuse(1, start, "a line before the problem line that is no comment");
        }
        start = line.next;
    }
    // "A missing token's point is after the bytes that may precede it.": after the comment lines.
    refuse(1, text.len(), "no problem line")
}

/// V, C, and where the numbers begin.
struct Problem {
    variables: usize,
    clauses: usize,
    after: usize,
}

/// A token of the problem line from `at` on: it begins behind the blanks, and is empty if there is none. `end` is the line's end, so that
/// "a CR not before LF is part of one".
fn word(text: &[u8], at: usize, end: usize) -> (usize, usize) {
    let mut from = at;
    while from < end && is_blank(text[from]) {
        from += 1;
    }
    let mut to = from;
    while to < end && !is_blank(text[to]) {
        to += 1;
    }
    (from, to)
}

/// A number without a minus: "`0`, or ... digits that don't begin with 0"; "V and C take no minus". What is above a million is given as a
/// million, which is above every limit.
fn whole_number(token: &[u8]) -> Option<usize> {
    if token.is_empty() || !token.iter().all(|byte| byte.is_ascii_digit()) {
        return None;
    }
    if token[0] == b'0' && token.len() > 1 {
        return None;
    }
    Some(
        token
            .iter()
            .fold(0, |number: usize, digit| (number * 10 + usize::from(digit - b'0')).min(1_000_000)),
    )
}

/// "The problem line is `p cnf V C` from its first byte, tokens apart by blanks, which may also follow C."
fn problem_line(text: &[u8], start: usize) -> Result<Problem, Refusal> {
    let line = line(text, start);
    let (from, to) = word(text, start, line.end);
    if &text[from..to] != b"p" {
        return refuse(1, from, "a first token other than p");
    }
    let (from, to) = word(text, to, line.end);
    if from == to {
        return refuse(1, from, "no cnf");
    }
    if &text[from..to] != b"cnf" {
        return refuse(1, from, "a second token other than cnf");
    }
    let (from, to) = word(text, to, line.end);
    if from == to {
        return refuse(1, from, "no V");
    }
    // "at one token 1 comes before 2"
    let variables = match whole_number(&text[from..to]) {
        None => return refuse(1, from, "a V that is no number"),
        Some(number) => number,
    };
    if variables > VARIABLES {
        return refuse(2, from, "V over 2,000");
    }
    let (from, to) = word(text, to, line.end);
    if from == to {
        return refuse(1, from, "no C");
    }
    let clauses = match whole_number(&text[from..to]) {
        None => return refuse(1, from, "a C that is no number"),
        Some(number) => number,
    };
    if clauses > CLAUSES {
        return refuse(2, from, "C over 4,000");
    }
    let (from, to) = word(text, to, line.end);
    if from != to {
        return refuse(1, from, "a token behind C");
    }
    Ok(Problem {
        variables,
        clauses,
        after: line.next,
    })
}

/// A token from `at` on: "a longest run without those four". It begins behind those four bytes, and is empty at the end of the text.
fn token(text: &[u8], at: usize) -> (usize, usize) {
    let mut from = at;
    while from < text.len() && is_one_of_four(text[from]) {
        from += 1;
    }
    let mut to = from;
    while to < text.len() && !is_one_of_four(text[to]) {
        to += 1;
    }
    (from, to)
}

/// A number: "`0`, or an optional minus and digits that don't begin with 0; no plus, no `-0`".
fn number(token: &[u8]) -> Option<Literal> {
    if token.first() == Some(&b'-') {
        match whole_number(&token[1..]) {
            None | Some(0) => None,
            Some(number) => Some(-(number as Literal)),
        }
    } else {
        whole_number(token).map(|number| number as Literal)
    }
}

/// The clauses behind the problem line.
fn clauses(text: &[u8], problem: &Problem) -> Result<Book, Refusal> {
    let mut at = problem.after;
    let mut clauses = Vec::new();
    let mut kept_in_all = 0;
    // "Exactly C clauses are read"
    while clauses.len() < problem.clauses {
        let mut stored = Vec::new();
        let mut met = BTreeSet::new();
        loop {
            let (from, to) = token(text, at);
            if from == to {
                return refuse(1, from, "a text that ends before its last clause does");
            }
            let literal = match number(&text[from..to]) {
                None => return refuse(1, from, "a token that is no number"),
                Some(number) => number,
            };
            at = to;
            // "A 0 ends a clause."
            if literal == 0 {
                break;
            }
            // "a literal's variable is above V"
            if literal.unsigned_abs() as usize > problem.variables {
                return refuse(1, from, "a variable above V");
            }
            // "A repeated literal is dropped and the first one kept."
            if met.insert(literal) {
                // "a clause's 1,001st or the table's 16,001st kept literal"
                if stored.len() == CLAUSE_LITERALS {
                    return refuse(2, from, "a clause's 1,001st literal");
                }
                if kept_in_all == LITERALS {
                    return refuse(2, from, "the table's 16,001st literal");
                }
                stored.push(literal);
                kept_in_all += 1;
            }
        }
        clauses.push(stored);
    }
    // "only those four bytes may follow"
    let (from, to) = token(text, at);
    if from != to {
        return refuse(1, from, "a token behind the last clause");
    }
    Ok(Book::of(problem.variables, &clauses))
}
