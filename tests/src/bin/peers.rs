//! The library beside CaDiCaL: the same remainder, CaDiCaL's removals accepted by the stack check, and one verdict on a book and on its remainder. Ends
//! with status 1 on any difference.
use std::collections::HashMap;
use tests::books::{dimacs, Book, FAMILIES};
use tests::cadical::{sorted, Clause, Desk, Shrunk};
use tests::doors::{self, Answer};
use tests::random::Random;

const SEED: u64 = 1;
const RANDOM_BOOKS: usize = 1000;

/// A small random book without units: clauses of 2 to 5 literals over few variables, tautologies and equal clauses among them.
fn random_book(random: &mut Random) -> Book {
    let n = random.between(3, 60);
    let mut book = Book::new(n);
    for _ in 0..random.between(1, 1 + 4 * n) {
        let mut clause: Clause = Vec::new();
        let len = random.between(2, 5.min(n));
        while clause.len() < len {
            let v = random.below(n) as i32 + 1;
            let x = tests::books::signed(random, v);
            if !clause.contains(&x) && (random.chance(1, 20) || !clause.contains(&-x)) {
                clause.push(x);
            }
        }
        book.push(&clause);
        if random.chance(1, 20) {
            book.push(&clause);
        }
    }
    book
}

/// Elimination through the door: the marks of the live clauses.
fn eliminate(book: &Book) -> Vec<bool> {
    let mut stack = vec![0; 2 * book.m()];
    let mut answer: Answer = [0; 4];
    assert!(doors::eliminate(book.n, book.m(), &book.lits, &book.offs, &mut stack, &mut answer));
    assert_eq!(answer[0], 0, "a refusal");
    let mut live = vec![true; book.m() + 1];
    for entry in stack[..2 * answer[1]].chunks_exact(2) {
        live[entry[0] as usize] = false;
    }
    live
}

fn clause(book: &Book, k: usize) -> Clause {
    sorted(book.row(k).iter().map(|&code| dimacs(code)).collect())
}

fn is_tautology(c: &[i32]) -> bool {
    c.iter().any(|x| c.contains(&-x))
}

/// CaDiCaL's removals as a stack of the book. It drops tautologies as it reads; they go first here, each by its first literal.
fn stack_of(book: &Book, removed: &[(Clause, i32)]) -> Option<Vec<u32>> {
    let mut numbers: HashMap<Clause, Vec<usize>> = HashMap::new();
    let mut stack = Vec::new();
    for k in 1..=book.m() {
        let c = clause(book, k);
        if is_tautology(&c) {
            stack.extend_from_slice(&[k as u32, book.row(k)[0] as u32]);
        } else {
            numbers.entry(c).or_default().push(k);
        }
    }
    for (c, x) in removed {
        let k = numbers.get_mut(c)?.pop()?;
        stack.extend_from_slice(&[k as u32, 2 * x.unsigned_abs() + (*x < 0) as u32]);
    }
    Some(stack)
}

/// What differs on one book.
fn differences(desk: &Desk, book: &Book) -> Vec<String> {
    let mut found = Vec::new();
    let live = eliminate(book);
    let remainder = book.remainder(&live);
    desk.lay(book);
    desk.run();
    let Shrunk { mut left, removed } = desk.shrunk();
    let mut ours: Vec<Clause> = (1..=remainder.m()).map(|k| clause(&remainder, k)).collect();
    left.sort();
    ours.sort();
    if left != ours {
        found.push(format!("CaDiCaL leaves {} clauses, the library {}", left.len(), ours.len()));
    }
    match stack_of(book, &removed) {
        None => found.push("CaDiCaL removes a clause that the book does not have".to_string()),
        Some(stack) => {
            let count = stack.len() / 2;
            let mut lent = stack;
            lent.resize(2 * book.m(), 0);
            let mut answer: Answer = [0; 4];
            assert!(doors::check_stack(
                book.n,
                book.m(),
                &book.lits,
                &book.offs,
                &lent,
                count,
                &mut answer
            ));
            if answer[0] != 0 {
                found.push(format!("the check refuses CaDiCaL's removals: {} at {}", answer[0], answer[1]));
            }
        }
    }
    let before = desk.verdict();
    desk.lay(&remainder);
    if before != desk.verdict() {
        found.push("CaDiCaL's verdict on the book is not that on its remainder".to_string());
    }
    found
}

/// CaDiCaL's verdict alone, for books with units.
fn verdict_differs(desk: &Desk, book: &Book) -> Vec<String> {
    desk.lay(book);
    let before = desk.verdict();
    desk.lay(&book.remainder(&eliminate(book)));
    if before == desk.verdict() {
        Vec::new()
    } else {
        vec!["CaDiCaL's verdict on the book is not that on its remainder".to_string()]
    }
}

fn main() {
    let version = Desk::version().expect("cadical is not installed");
    println!("peers: CaDiCaL {}, seed {}", version, SEED);
    let desk = Desk::new();
    let (mut books, mut differing, mut removed, mut tested) = (0, 0, 0, 0);
    let mut tell = |name: String, book: &Book, found: Vec<String>| {
        books += 1;
        removed += eliminate(book).iter().skip(1).filter(|live| !**live).count();
        tested += book.m();
        if !found.is_empty() {
            differing += 1;
            println!("{}: {}\n{}", name, found.join("; "), book.text());
        }
    };
    for case in 0..RANDOM_BOOKS {
        let book = random_book(&mut Random::of(SEED, "peers", case));
        tell(format!("random book {}", case), &book, differences(&desk, &book));
    }
    for family in &FAMILIES {
        let limit = family.limit(SEED);
        for size in [limit, limit / 2, limit / 4] {
            let book = family.book(size, SEED);
            let found = if family.units {
                verdict_differs(&desk, &book)
            } else {
                differences(&desk, &book)
            };
            tell(format!("{}, size {}", family.name, size), &book, found);
        }
    }
    println!("peers: {} of {} clauses removed", removed, tested);
    println!("peers: {} books, {} differences", books, differing);
    drop(desk);
    std::process::exit((differing > 0) as i32);
}
