//! The saved form, written and read: "Fields of a one-byte tag, a two-byte length of the value, and the value. All numbers are big-endian,
//! two bytes."

use super::stack::check;
use super::{code_of, literal_of, refuse, Book, Entry, Literal, Refusal, CLAUSES, CLAUSE_LITERALS, LITERALS, VARIABLES};
use std::collections::{BTreeMap, BTreeSet};

const HEADER: u8 = 0x01;
const LIVE: u8 = 0x02;
const REMOVED: u8 = 0x03;
const END: u8 = 0x7f;

/// One field of these numbers.
pub fn field(tag: u8, numbers: &[usize]) -> Vec<u8> {
    let mut bytes = vec![tag];
    bytes.extend_from_slice(&(2 * numbers.len() as u16).to_be_bytes());
    for &number in numbers {
        bytes.extend_from_slice(&(number as u16).to_be_bytes());
    }
    bytes
}

/// The form of a book and its stack.
pub fn form(book: &Book, stack: &[Entry]) -> Vec<u8> {
    let literals: usize = book.clauses.values().map(|clause| clause.stored.len()).sum();
    let codes = |number: usize| -> Vec<usize> {
        book.clauses[&number]
            .stored
            .iter()
            .map(|&literal| code_of(literal) as usize)
            .collect()
    };
    // "`01`, length 8: n, m, literals in all, removals."
    let mut bytes = field(HEADER, &[book.variables, book.clauses.len(), literals, stack.len()]);
    // "`02` live clause: number, then literals. All live clauses, numbers rising."; "Literals keep their stored order."
    for number in book.live(stack) {
        let mut numbers = vec![number];
        numbers.extend(codes(number));
        bytes.extend(field(LIVE, &numbers));
    }
    // "`03` removed clause: number, blocking literal, literals. Oldest first."
    for entry in stack {
        let mut numbers = vec![entry.clause, code_of(entry.literal) as usize];
        numbers.extend(codes(entry.clause));
        bytes.extend(field(REMOVED, &numbers));
    }
    // "`7F`, length 0. Nothing follows."
    bytes.extend(field(END, &[]));
    bytes
}

/// The field at `at`: "whole field present, tag, length". Gives the numbers of its value and where the next field begins.
fn read_field(bytes: &[u8], at: usize, tag: u8, right_length: fn(usize) -> bool) -> Result<(Vec<usize>, usize), Refusal> {
    if bytes.len() < at + 3 {
        return refuse(10, at, "a field that is not whole");
    }
    let length = usize::from(u16::from_be_bytes([bytes[at + 1], bytes[at + 2]]));
    if bytes.len() < at + 3 + length {
        return refuse(10, at, "a field that is not whole");
    }
    // "Another tag at a place is a fault of that field."
    if bytes[at] != tag {
        return refuse(10, at, "another tag");
    }
    if !right_length(length) {
        return refuse(10, at, "a wrong length");
    }
    let value = &bytes[at + 3..at + 3 + length];
    let numbers = value
        .chunks(2)
        .map(|pair| usize::from(u16::from_be_bytes([pair[0], pair[1]])))
        .collect();
    Ok((numbers, at + 3 + length))
}

/// The clauses that the fields have brought so far.
struct Clauses {
    variables: usize,
    clauses: usize,
    literals: usize,
    met: BTreeMap<usize, Vec<Literal>>,
}

impl Clauses {
    /// Takes the clause of the field at `at`.
    fn take(&mut self, at: usize, number: usize, blocking: Option<usize>, codes: &[usize]) -> Result<(), Refusal> {
        // "limits (2)": "a clause's 1,001st or the table's 16,001st ... literal; the same limits in a saved form"
        if codes.len() > CLAUSE_LITERALS {
            return refuse(2, at, "a clause over 1,000 literals");
        }
        if self.literals + codes.len() > LITERALS {
            return refuse(2, at, "over 16,000 literals met");
        }
        // "A clause number outside 1 to m, met before"
        if number < 1 || number > self.clauses {
            return refuse(10, at, "a clause number outside 1 to m");
        }
        if self.met.contains_key(&number) {
            return refuse(10, at, "a clause number met before");
        }
        // "a code outside 2 to 2n+1"
        if codes.iter().any(|&code| code < 2 || code > 2 * self.variables + 1) {
            return refuse(10, at, "a code outside 2 to 2n+1");
        }
        // "a repeated literal"
        let set: BTreeSet<usize> = codes.iter().copied().collect();
        if set.len() != codes.len() {
            return refuse(10, at, "a repeated literal");
        }
        // "a blocking literal not in its clause"
        if let Some(code) = blocking {
            if !set.contains(&code) {
                return refuse(10, at, "a blocking literal not in its clause");
            }
        }
        self.literals += codes.len();
        self.met.insert(number, codes.iter().map(|&code| literal_of(code as u32)).collect());
        Ok(())
    }
}

/// The book and the stack in a form. "In one field the order is: whole field present, tag, length, limits (2), the rest."
pub fn read(bytes: &[u8]) -> Result<(Book, Vec<Entry>), Refusal> {
    // "The header comes first"
    let (header, mut at) = read_field(bytes, 0, HEADER, |length| length == 8)?;
    let (variables, clauses, literals, removals) = (header[0], header[1], header[2], header[3]);
    // "V over 2,000; C over 4,000; ... the same limits in a saved form", "offset of the ... field"
    if variables > VARIABLES {
        return refuse(2, 0, "n over 2,000");
    }
    if clauses > CLAUSES {
        return refuse(2, 0, "m over 4,000");
    }
    if literals > LITERALS {
        return refuse(2, 0, "literals in all over 16,000");
    }
    // "More removals than clauses is a fault of the header."
    if removals > clauses {
        return refuse(10, 0, "more removals than clauses");
    }
    let mut taken = Clauses {
        variables,
        clauses,
        literals: 0,
        met: BTreeMap::new(),
    };
    // "then exactly as many `02` fields as the header's clauses less its removals"
    let mut last = 0;
    for _ in 0..clauses - removals {
        let (numbers, next) = read_field(bytes, at, LIVE, |length| length >= 2 && length % 2 == 0)?;
        taken.take(at, numbers[0], None, &numbers[1..])?;
        // "in `02`, not rising"
        if numbers[0] <= last {
            return refuse(10, at, "a live clause's number not rising");
        }
        last = numbers[0];
        at = next;
    }
    // "then exactly as many `03` fields as its removals"
    let mut stack = Vec::new();
    for _ in 0..removals {
        let (numbers, next) = read_field(bytes, at, REMOVED, |length| length >= 4 && length % 2 == 0)?;
        taken.take(at, numbers[0], Some(numbers[1]), &numbers[2..])?;
        stack.push(Entry {
            clause: numbers[0],
            literal: literal_of(numbers[1] as u32),
        });
        at = next;
    }
    // "then the end"
    let (_, next) = read_field(bytes, at, END, |length| length == 0)?;
    // "A total of literals that disagrees with the header is a fault of the end field"
    if taken.literals != literals {
        return refuse(10, at, "a total that disagrees");
    }
    // "bytes after it are a fault at the first of them"
    if next < bytes.len() {
        return refuse(10, next, "bytes behind the end");
    }
    let clauses: Vec<Vec<Literal>> = taken.met.values().cloned().collect();
    let book = Book::of(variables, &clauses);
    // "Faults of form come before 6."
    check(&book, &stack)?;
    Ok((book, stack))
}
