//! The library through its doors beside the same algorithm in Rust, and elimination beside CaDiCaL's whole process. Every output of the two sides is
//! compared before anything is timed. Prints Markdown: a table for each call, times in microseconds.
use std::time::Instant;
use tests::books::{falls, Book, Family, FAMILIES};
use tests::cadical::{Desk, OPTIONS};
use tests::doors::{self, Answer};
use tests::random::Random;
use tests::same::{self, Refusal};

const SEED: u64 = 1;
/// The goals: at most this many times the same algorithm in Rust, and CaDiCaL's whole process.
const GOAL_SAME: f64 = 1.2;
const GOAL_CADICAL: f64 = 1.0;
/// A pair is timed for so many seconds, but at least and at most so many times.
const SECONDS: f64 = 0.5;
const LEAST: usize = 5;
const MOST: usize = 5000;
const CADICAL_RUNS: usize = 20;

const ELIMINATION: usize = 0;
const CHECK: usize = 1;
const REBUILD: usize = 2;
const READING: usize = 3;
const SAVING: usize = 4;
const LOADING: usize = 5;
const CALLS: [&str; 6] = [
    "Elimination",
    "Stack check",
    "Rebuild",
    "Text reading",
    "Saved form, writing",
    "Saved form, reading",
];

/// One side's buffers: what it is lent, and what it wrote there.
#[derive(PartialEq)]
struct Lent {
    lits: Vec<u16>,
    offs: Vec<u32>,
    stack: Vec<u32>,
    vals: Vec<u8>,
    bytes: Vec<u8>,
    answer: Answer,
}

impl Lent {
    /// Buffers in which a cell that is written shows.
    fn new() -> Lent {
        Lent {
            lits: vec![0xA5A5; 16000],
            offs: vec![0xA5A5_A5A5; 4001],
            stack: vec![0xA5A5_A5A5; 8000],
            vals: vec![0xA5; 2000],
            bytes: vec![0xA5; 60014],
            answer: [0xA5A5; 4],
        }
    }
}

/// The cells of an answer, as a door writes them.
fn cells(result: Result<[usize; 3], Refusal>) -> Answer {
    match result {
        Ok([a, b, c]) => [0, a, b, c],
        Err(refusal) => {
            let (number, place) = refusal.told();
            [number, place, 0, 0]
        }
    }
}

/// A book with all that its calls are given.
struct Case {
    book: Book,
    text: String,
    stack: Vec<u32>,
    count: usize,
    /// Values that satisfy the remaining clauses; a variable of none of them has a random value.
    vals: Vec<u8>,
    saved: Vec<u8>,
}

impl Case {
    fn of(family: &Family, size: usize) -> Case {
        let book = family.book(size, SEED);
        assert!(book.fits() && same::is_sound(book.n, book.m(), &book.lits, &book.offs));
        let mut stack = vec![0; 8000];
        let count = same::eliminate(book.n, book.m(), &book.lits, &book.offs, &mut stack).expect("elimination");
        if family.name == "one a sweep" {
            assert!(count == book.m() - 3 && falls(&stack, count), "not one a sweep");
        }
        let mut live = vec![true; book.m() + 1];
        for entry in stack[..2 * count].chunks_exact(2) {
            live[entry[0] as usize] = false;
        }
        let mut random = Random::of(SEED, family.name, size);
        let mut vals: Vec<u8> = (0..book.n).map(|_| random.chance(1, 2) as u8).collect();
        for k in (1..=book.m()).filter(|&k| live[k]) {
            for v in book.row(k).iter().map(|&code| code as usize / 2 - 1) {
                vals[v] = book.model[v];
            }
        }
        let mut saved = vec![0; 60014];
        let len = same::write_saved(book.n, book.m(), &book.lits, &book.offs, &stack, count, &mut saved).expect("the saved form");
        saved.truncate(len);
        Case {
            text: book.text(),
            book,
            stack,
            count,
            vals,
            saved,
        }
    }

    /// One call through the door: its microseconds.
    fn door(&self, call: usize, lent: &mut Lent) -> f64 {
        let (n, m, lits, offs) = (self.book.n, self.book.m(), &self.book.lits[..], &self.book.offs[..]);
        lent.vals[..n].copy_from_slice(&self.vals);
        let start = Instant::now();
        let done = match call {
            ELIMINATION => doors::eliminate(n, m, lits, offs, &mut lent.stack, &mut lent.answer),
            CHECK => doors::check_stack(n, m, lits, offs, &self.stack, self.count, &mut lent.answer),
            REBUILD => doors::rebuild(n, m, lits, offs, &self.stack, self.count, &mut lent.vals, &mut lent.answer),
            READING => doors::read_text(self.text.as_bytes(), &mut lent.lits, &mut lent.offs, &mut lent.answer),
            SAVING => doors::write_saved(n, m, lits, offs, &self.stack, self.count, &mut lent.bytes, &mut lent.answer),
            _ => doors::read_saved(&self.saved, &mut lent.lits, &mut lent.offs, &mut lent.stack, &mut lent.answer),
        };
        let time = start.elapsed().as_secs_f64() * 1e6;
        assert!(done && lent.answer[0] == 0, "a refusal");
        time
    }

    /// The same call of the Rust program: its microseconds.
    fn same(&self, call: usize, lent: &mut Lent) -> f64 {
        let (n, m, lits, offs) = (self.book.n, self.book.m(), &self.book.lits[..], &self.book.offs[..]);
        lent.vals[..n].copy_from_slice(&self.vals);
        let start = Instant::now();
        let result = match call {
            ELIMINATION => same::eliminate(n, m, lits, offs, &mut lent.stack).map(|count| [count, 0, 0]),
            CHECK => same::check_stack(n, m, lits, offs, &self.stack, self.count).map(|_| [0; 3]),
            REBUILD => same::rebuild(n, m, lits, offs, &self.stack, self.count, &mut lent.vals).map(|_| [0; 3]),
            READING => same::read_text(self.text.as_bytes(), &mut lent.lits, &mut lent.offs).map(|(n, m)| [n, m, 0]),
            SAVING => same::write_saved(n, m, lits, offs, &self.stack, self.count, &mut lent.bytes).map(|len| [len, 0, 0]),
            _ => same::read_saved(&self.saved, &mut lent.lits, &mut lent.offs, &mut lent.stack).map(|(n, m, count)| [n, m, count]),
        };
        lent.answer = cells(result);
        let time = start.elapsed().as_secs_f64() * 1e6;
        assert!(lent.answer[0] == 0, "a refusal");
        time
    }

    /// Runs both sides on equal buffers, and sees that they wrote the same, and the right thing.
    fn agree(&self, call: usize) {
        let (mut by_door, mut by_same) = (Lent::new(), Lent::new());
        self.door(call, &mut by_door);
        self.same(call, &mut by_same);
        assert!(by_door == by_same, "the two sides differ: {}", CALLS[call]);
        let (m, words) = (self.book.m(), 2 * self.count);
        let same_table = || by_door.lits[..self.book.lits.len()] == self.book.lits && by_door.offs[..=m] == self.book.offs;
        let right = match call {
            ELIMINATION => by_door.stack[..words] == self.stack[..words],
            REBUILD => (1..=m).all(|k| self.book.row(k).iter().any(|&code| Book::is_true(&by_door.vals, code))),
            READING => same_table(),
            SAVING => by_door.bytes[..self.saved.len()] == self.saved,
            LOADING => same_table() && by_door.stack[..words] == self.stack[..words],
            _ => true,
        };
        assert!(right, "a wrong answer: {}", CALLS[call]);
    }

    /// The least time of each side, one call of each in turn, and how many turns.
    fn times(&self, call: usize, seconds: f64) -> (f64, f64, usize) {
        let (mut by_door, mut by_same) = (Lent::new(), Lent::new());
        let (mut least_door, mut least_same) = (f64::INFINITY, f64::INFINITY);
        let (start, mut turns) = (Instant::now(), 0);
        while turns < LEAST || (turns < MOST && start.elapsed().as_secs_f64() < seconds) {
            least_door = least_door.min(self.door(call, &mut by_door));
            least_same = least_same.min(self.same(call, &mut by_same));
            turns += 1;
        }
        (least_door, least_same, turns)
    }
}

/// The least time of CaDiCaL's whole process on a book.
fn cadical_time(desk: &Desk, book: &Book) -> f64 {
    desk.lay(book);
    let run = || {
        let start = Instant::now();
        desk.run();
        start.elapsed().as_secs_f64() * 1e6
    };
    (0..CADICAL_RUNS).map(|_| run()).fold(f64::INFINITY, f64::min)
}

/// Microseconds in three figures or more.
fn told(time: f64) -> String {
    let places = if time < 10.0 {
        2
    } else if time < 100.0 {
        1
    } else {
        0
    };
    format!("{:.*}", places, time)
}

/// The rows of the tables, and what missed a goal.
#[derive(Default)]
struct Report {
    sizes: Vec<String>,
    rows: [Vec<String>; 6],
    worst: [(f64, String); 6],
    missed: Vec<String>,
}

impl Report {
    fn add(&mut self, family: &Family, case: &Case, desk: Option<&Desk>, seconds: f64) {
        let (name, book) = (format!("{} | {}", family.name, case.book.m()), &case.book);
        let at = format!("{}, {} clauses", family.name, book.m());
        let (lits, text, saved) = (book.lits.len(), case.text.len(), case.saved.len());
        self.sizes.push(format!(
            "| {} | {} | {} | {} | {} | {} |",
            name, book.n, lits, text, case.count, saved
        ));
        let mut with_reading = 0.0;
        for (call, call_name) in CALLS.iter().enumerate() {
            case.agree(call);
            let (door, rust, turns) = case.times(call, seconds);
            let ratio = door / rust;
            let row = format!("| {} | {} | {} | {:.2} | {} |", name, told(door), told(rust), ratio, turns);
            eprintln!("{} {}", call_name, row);
            self.rows[call].push(row);
            if ratio > self.worst[call].0 {
                self.worst[call] = (ratio, at.clone());
            }
            if ratio > GOAL_SAME {
                self.missed
                    .push(format!("{}, {}: {:.2} times the same algorithm in Rust", call_name, at, ratio));
            }
            if call == ELIMINATION || call == READING {
                with_reading += door;
            }
        }
        let row = self.rows[ELIMINATION].last_mut().unwrap();
        if let Some(desk) = desk {
            let whole = cadical_time(desk, book);
            let ratio = with_reading / whole;
            row.push_str(&format!(" {} | {} | {:.2} |", told(with_reading), told(whole), ratio));
            if ratio > GOAL_CADICAL {
                self.missed.push(format!(
                    "{}, {}: {:.2} times CaDiCaL's whole process",
                    CALLS[ELIMINATION], at, ratio
                ));
            }
        } else {
            row.push_str(&format!(" {} | not installed | |", told(with_reading)));
        }
    }

    fn print(&self) {
        println!("\nThe families:\n");
        for family in &FAMILIES {
            println!("- {}: {}.", family.name, family.about);
        }
        println!("\nThe books, each family at document 01's limits, at a half and at a quarter:\n");
        println!("| family | clauses | variables | literals | text bytes | removals | saved bytes |\n|---|---|---|---|---|---|---|");
        println!("{}", self.sizes.join("\n"));
        for (call, call_name) in CALLS.iter().enumerate() {
            let (head, rule) = if call == ELIMINATION {
                (" Rattle, with text reading | CaDiCaL | Rattle / CaDiCaL |", "---|---|---|")
            } else {
                ("", "")
            };
            println!("\n## {}\n", call_name);
            println!(
                "| family | clauses | Rattle | Rust | Rattle / Rust | turns |{}\n|---|---|---|---|---|---|{}",
                head, rule
            );
            println!("{}", self.rows[call].join("\n"));
        }
        println!(
            "\n## The goals\n\nRattle / Rust at most {:.1}, Rattle / CaDiCaL at most {:.1}.\n",
            GOAL_SAME, GOAL_CADICAL
        );
        println!("| call | highest Rattle / Rust | at |\n|---|---|---|");
        for (call_name, (ratio, at)) in CALLS.iter().zip(&self.worst) {
            println!("| {} | {:.2} | {} |", call_name, ratio, at);
        }
        println!("\nMissed: {}.\n", self.missed.len());
        for line in &self.missed {
            println!("- {}", line);
        }
    }
}

fn main() {
    let seconds = match std::env::args().nth(1) {
        None => SECONDS,
        Some(word) => word.parse().expect("bench [SECONDS FOR EACH PAIR]"),
    };
    let version = Desk::version();
    let desk = version.as_ref().map(|_| Desk::new());
    let mut report = Report::default();
    for family in &FAMILIES {
        let limit = family.limit(SEED);
        for size in [limit, limit / 2, limit / 4] {
            report.add(family, &Case::of(family, size), desk.as_ref(), seconds);
        }
    }
    println!(
        "Seed {}. Times are microseconds: the least of as many turns as the table says, in each of which both sides are called once.",
        SEED
    );
    println!("Lent buffers are not cleared between calls; the values of a rebuild are laid down again before each call, outside its time. The local arrays");
    println!("of both sides are cleared within each call. Before the times are taken both sides run once on equal buffers, and every cell is compared.");
    match (version, &desk) {
        (Some(version), Some(desk)) => {
            println!(
                "\nCaDiCaL ({}) is timed as a whole process, the least of {} runs:\n",
                version, CADICAL_RUNS
            );
            println!("    cadical -q -n -f {} -o LEFT -e REMOVED BOOK\n", OPTIONS.join(" "));
            println!("It reads the text, eliminates, and writes what is left, so the library's text reading is added to its elimination beside it. On a book");
            println!(
                "with no clause the process takes {} microseconds.",
                told(cadical_time(desk, &Book::new(0)))
            );
        }
        _ => println!("\nCaDiCaL is not installed."),
    }
    report.print();
}
