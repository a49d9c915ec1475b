//! The machine stack that each entry needs: the smallest thread stack, in KiB, with which it still answers on a book at the limits. A try is a process of
//! its own, since an overflow ends it.
use std::process::{Command, Stdio};
use std::thread;
use tests::books::{Book, FAMILIES};
use tests::doors::{self, Answer};

const SEED: u64 = 1;
/// A stack with which everything answers, in KiB.
const MOST: usize = 4096;
/// What a thread touches to show what it has beside its own share, in KiB: more than a thread gets where it asks for nothing.
const TOUCHED: usize = 64;

const ENTRIES: [&str; 10] = [
    "is_sound",
    "clause_literals",
    "read_text",
    "eliminate",
    "remove",
    "next_blocked",
    "check_stack",
    "rebuild",
    "write_saved",
    "read_saved",
];

#[inline(never)]
fn lay(array: &mut [u8], value: u8) {
    array.fill(value);
}

#[inline(never)]
fn sum(array: &[u8]) -> usize {
    array.iter().map(|&cell| cell as usize).sum()
}

/// Touches about so many KiB of the stack, one in each call.
#[inline(never)]
fn touch(kib: usize) -> bool {
    let mut array = [0; 960];
    lay(&mut array, 1);
    (kib <= 1 || touch(kib - 1)) && sum(&array) == 960
}

/// What an entry is lent, all of it on the heap: a book with its stack, and its saved form.
struct Lent {
    book: Book,
    text: String,
    stack: Vec<u32>,
    count: usize,
    saved: Vec<u8>,
    len: usize,
}

impl Lent {
    fn new() -> Lent {
        let family = &FAMILIES[1];
        let book = family.book(family.limit(SEED), SEED);
        let (mut stack, mut saved, mut answer) = (vec![0; 8000], vec![0; 60014], [0; 4]);
        assert!(doors::eliminate(book.n, book.m(), &book.lits, &book.offs, &mut stack, &mut answer) && answer[0] == 0);
        let count = answer[1];
        assert!(doors::write_saved(book.n, book.m(), &book.lits, &book.offs, &stack, count, &mut saved, &mut answer) && answer[0] == 0);
        Lent {
            text: book.text(),
            book,
            stack,
            count,
            saved,
            len: answer[1],
        }
    }

    /// One entry; true where it answers with no refusal.
    fn call(&mut self, entry: &str) -> bool {
        let (n, m, lits, offs) = (self.book.n, self.book.m(), &self.book.lits[..], &self.book.offs[..]);
        let (stack, count) = (&mut self.stack[..], self.count);
        let (mut new_lits, mut new_offs, mut new_stack) = (vec![0; 16000], vec![0; 4001], vec![0; 8000]);
        let mut answer: Answer = [0; 4];
        let done = match entry {
            "is_sound" => doors::is_sound(n, m, lits, offs),
            "clause_literals" => doors::clause_literals(n, m, lits, offs, m, &mut answer),
            "read_text" => doors::read_text(self.text.as_bytes(), &mut new_lits, &mut new_offs, &mut answer),
            "eliminate" => doors::eliminate(n, m, lits, offs, stack, &mut answer),
            "remove" => {
                let (clause, literal) = (stack[2 * count - 2], stack[2 * count - 1]);
                doors::remove(n, m, lits, offs, stack, count - 1, clause, literal, &mut answer)
            }
            "next_blocked" => doors::next_blocked(n, m, lits, offs, stack, count, &mut answer),
            "check_stack" => doors::check_stack(n, m, lits, offs, stack, count, &mut answer),
            "rebuild" => doors::rebuild(n, m, lits, offs, stack, count, &mut self.book.model, &mut answer),
            "write_saved" => doors::write_saved(n, m, lits, offs, stack, count, &mut self.saved, &mut answer),
            "read_saved" => doors::read_saved(&self.saved[..self.len], &mut new_lits, &mut new_offs, &mut new_stack, &mut answer),
            _ => true,
        };
        done && answer[0] == 0
    }
}

/// The child's part: on a thread with so much stack, so much is touched, and then the entry is called.
fn attempt(entry: &str, kib: usize, touched: usize) -> bool {
    let (mut lent, entry) = (Lent::new(), entry.to_string());
    let work = move || (touched == 0 || touch(touched)) && lent.call(&entry);
    thread::Builder::new()
        .stack_size(kib * 1024)
        .spawn(work)
        .expect("a thread")
        .join()
        .unwrap_or(false)
}

/// Whether a child answers.
fn answers(entry: &str, kib: usize, touched: usize) -> bool {
    let mut command = Command::new(std::env::current_exe().expect("this program"));
    command
        .args([entry, &kib.to_string(), &touched.to_string()])
        .stdout(Stdio::null())
        .stderr(Stdio::null());
    command.status().expect("a child").code() == Some(0)
}

/// The smallest number up to MOST for which the test holds, by halving.
fn smallest(test: impl Fn(usize) -> bool) -> usize {
    let (mut less, mut enough) = (0, MOST);
    assert!(test(enough), "no answer with {} KiB", enough);
    while less + 1 < enough {
        let kib = (less + enough) / 2;
        if test(kib) {
            enough = kib;
        } else {
            less = kib;
        }
    }
    enough
}

fn main() {
    let words: Vec<String> = std::env::args().skip(1).collect();
    if let [entry, kib, touched] = &words[..] {
        let number = |word: &String| word.parse().expect("a size in KiB");
        std::process::exit(!attempt(entry, number(kib), number(touched)) as i32);
    }
    let nothing = smallest(|kib| answers("nothing", kib, 0));
    let touched = smallest(|kib| answers("nothing", kib, TOUCHED));
    let least = smallest(|kib| !answers("nothing", 1, kib)) - 1;
    println!(
        "However little a thread asks for, it has about {} KiB; an entry that needs less shows as 1.\n",
        least
    );
    println!("| on the thread | smallest stack, KiB | without the thread's own share |\n|---|---|---|");
    println!("| nothing | {} | |", nothing);
    println!("| {} KiB touched | {} | {} |", TOUCHED, touched, TOUCHED);
    for entry in &ENTRIES {
        let kib = smallest(|kib| answers(entry, kib, 0));
        if kib == nothing {
            println!("| {} | {} | at most {} |", entry, kib, least);
        } else {
            println!("| {} | {} | {} |", entry, kib, kib.saturating_sub(touched - TOUCHED));
        }
    }
}
