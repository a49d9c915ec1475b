//! The comparison: each call is made through the door and by the second program on copies of the same lent buffers, and the returned bool,
//! the answer and every cell of every buffer are compared, the canaries around them too.

pub mod damage;
pub mod forms;
pub mod groups;
pub mod inputs;
pub mod known;
pub mod lent;
pub mod limits;
pub mod orders;
pub mod places;
pub mod program;
pub mod shapes;
pub mod short;
pub mod small;
pub mod tally;
pub mod texts;

use crate::doors;
use crate::random::Random;
use crate::second::calls::{self, Said};
use crate::second::table::fault;
use crate::second::{ROOM_LITERALS, ROOM_OFFSETS, ROOM_STACK};
use lent::{Cell, Lent};
use std::fmt::Debug;
use tally::Tally;

/// The ten doors.
#[derive(Clone, Copy, Debug, PartialEq, Eq, PartialOrd, Ord)]
pub enum Door {
    IsSound,
    ClauseLiterals,
    ReadText,
    Eliminate,
    Remove,
    NextBlocked,
    CheckStack,
    Rebuild,
    WriteSaved,
    ReadSaved,
}

impl Door {
    /// Whether the door reads a text or a form, and writes a table.
    fn is_reader(self) -> bool {
        self == Door::ReadText || self == Door::ReadSaved
    }
}

/// A table as it lies in memory, right or wrong: the buffers may have cells behind the table.
#[derive(Clone, Debug, Default, PartialEq, Eq)]
pub struct Table {
    pub n: usize,
    pub m: usize,
    pub lits: Vec<u16>,
    pub offs: Vec<u32>,
}

/// What a call is given. A door takes the part that its declaration names.
#[derive(Clone, Copy, Debug, Default)]
pub struct Given<'a> {
    pub n: usize,
    pub m: usize,
    pub lits: &'a [u16],
    pub offs: &'a [u32],
    pub stack: &'a [u32],
    pub bytes: &'a [u8],
    pub vals: &'a [u8],
    pub out: &'a [u8],
    pub count: usize,
    pub clause: u32,
    pub literal: u32,
    pub k: usize,
}

/// What a call left: the answer, and the buffers that it may write.
#[derive(Clone, Debug)]
pub struct Left {
    pub said: Said,
    pub lits: Vec<u16>,
    pub offs: Vec<u32>,
    pub stack: Vec<u32>,
    pub vals: Vec<u8>,
    pub out: Vec<u8>,
}

impl Left {
    /// Whether the call was not refused.
    pub fn done(&self) -> bool {
        self.said.cells[0] == 0
    }
}

/// The buffers of one call.
#[derive(Clone, Debug, Default)]
struct Buffers {
    lits: Lent<u16>,
    offs: Lent<u32>,
    stack: Lent<u32>,
    bytes: Lent<u8>,
    vals: Lent<u8>,
    out: Lent<u8>,
    answer: Lent<usize>,
}

/// The comparison under way: which case it is at, and what has been counted.
pub struct Compare {
    pub seed: u64,
    pub group: &'static str,
    pub case: usize,
    pub random: Random,
    pub tally: Tally,
    pub calls: usize,
    /// Whether every call is printed.
    pub loud: bool,
    /// The cells of the answer, if not four or some more.
    pub answer_cells: Option<usize>,
    /// The program `shrink`, if one was named.
    pub shrink: Option<String>,
    in_case: usize,
}

impl Compare {
    pub fn new() -> Compare {
        Compare {
            seed: 0,
            group: "",
            case: 0,
            random: Random::of(0, "", 0),
            tally: Tally::default(),
            calls: 0,
            loud: false,
            answer_cells: None,
            shrink: None,
            in_case: 0,
        }
    }

    /// Goes to a case: from here on all that is random comes from its seed, group and number.
    pub fn begin(&mut self, seed: u64, group: &'static str, case: usize) {
        self.seed = seed;
        self.group = group;
        self.case = case;
        self.random = Random::of(seed, group, case);
        self.answer_cells = None;
        self.in_case = 0;
    }

    /// Counts a compared call.
    pub fn count_call(&mut self) {
        self.calls += 1;
        self.in_case += 1;
    }

    /// Ends the program at a difference, after printing how to run the case again.
    pub fn differ(&self, what: &str) -> ! {
        println!(
            "difference in group {}, seed {}, case {}, call {} of the case",
            self.group, self.seed, self.case, self.in_case
        );
        println!("{}", what);
        println!("run it again: compare again {} {} {}", self.seed, self.group, self.case);
        std::process::exit(1);
    }

    /// Demands a property of what the calls have left.
    pub fn demand(&self, holds: bool, what: &str) {
        if !holds {
            self.differ(&format!("not so: {}", what));
        }
    }

    /// Random contents of a buffer.
    pub fn old<T: Cell>(&mut self, len: usize) -> Vec<T> {
        T::random(&mut self.random, len)
    }

    fn lend<T: Cell>(&mut self, cells: &[T]) -> Lent<T> {
        Lent::of(cells, &mut self.random)
    }

    /// Makes one call through the door and by the second program, compares them, and gives what both left.
    pub fn call(&mut self, door: Door, given: &Given) -> Left {
        self.count_call();
        let mut lent = Buffers {
            lits: self.lend(given.lits),
            offs: self.lend(given.offs),
            ..Buffers::default()
        };
        if door.is_reader() {
            lent.bytes = self.lend(given.bytes);
        }
        if door != Door::IsSound && door != Door::ClauseLiterals && door != Door::ReadText {
            lent.stack = self.lend(given.stack);
        }
        if door == Door::Rebuild {
            lent.vals = self.lend(given.vals);
        }
        if door == Door::WriteSaved {
            lent.out = self.lend(given.out);
        }
        let answer_cells = match self.answer_cells {
            Some(cells) => cells,
            None => 4 + self.random.below(4),
        };
        let old_answer = self.old(answer_cells);
        lent.answer = self.lend(&old_answer);

        let mut right = lent.clone();
        let (right_bool, said) = by_second(door, given, &mut right);
        let got_bool = by_door(door, given, &mut lent);
        self.tally.count(door, said);
        if self.loud {
            println!("call {}: {:?} of {}", self.in_case, door, spoken(door, given, usize::MAX));
            println!(
                "    second program: {:?}, {:?}; door: {:?}",
                right_bool,
                right.answer.cells(),
                lent.answer.cells()
            );
        }

        let mut faults = Vec::new();
        if got_bool != right_bool {
            faults.push(format!("returned {}, not {}", got_bool, right_bool));
        }
        compare("answer", &lent.answer, &right.answer, &mut faults);
        compare("literals", &lent.lits, &right.lits, &mut faults);
        compare("offsets", &lent.offs, &right.offs, &mut faults);
        compare("stack", &lent.stack, &right.stack, &mut faults);
        compare("bytes", &lent.bytes, &right.bytes, &mut faults);
        compare("values", &lent.vals, &right.vals, &mut faults);
        compare("output", &lent.out, &right.out, &mut faults);
        if !faults.is_empty() {
            let shown = if self.loud { usize::MAX } else { 300 };
            let words = format!("the second program says {:?}: {}", right.answer.cells(), said.why);
            self.differ(&format!(
                "{:?} of {}\n{}\n{}",
                door,
                spoken(door, given, shown),
                words,
                faults.join("\n")
            ));
        }
        Left {
            said,
            lits: written(door.is_reader(), &right.lits),
            offs: written(door.is_reader(), &right.offs),
            stack: written(
                door == Door::Eliminate || door == Door::Remove || door == Door::ReadSaved,
                &right.stack,
            ),
            vals: written(door == Door::Rebuild, &right.vals),
            out: written(door == Door::WriteSaved, &right.out),
        }
    }

    pub fn is_sound(&mut self, table: &Table) -> bool {
        let left = self.call(Door::IsSound, &given(table));
        left.said.why == "sound"
    }

    pub fn clause_literals(&mut self, table: &Table, k: usize) -> Left {
        self.call(Door::ClauseLiterals, &Given { k, ..given(table) })
    }

    /// Reads a text into buffers with enough room, at times a little more, of random old contents.
    pub fn read_text(&mut self, text: &[u8]) -> Left {
        let (more_lits, more_offs) = (self.random.below(3), self.random.below(3));
        self.read_text_into(text, ROOM_LITERALS + more_lits, ROOM_OFFSETS + more_offs)
    }

    pub fn read_text_into(&mut self, text: &[u8], lits_len: usize, offs_len: usize) -> Left {
        let lits: Vec<u16> = self.old(lits_len);
        let offs: Vec<u32> = self.old(offs_len);
        self.call(
            Door::ReadText,
            &Given {
                bytes: text,
                lits: &lits,
                offs: &offs,
                ..Given::default()
            },
        )
    }

    pub fn eliminate(&mut self, table: &Table, stack_len: usize) -> Left {
        let stack: Vec<u32> = self.old(stack_len);
        self.call(
            Door::Eliminate,
            &Given {
                stack: &stack,
                ..given(table)
            },
        )
    }

    pub fn remove(&mut self, table: &Table, stack: &[u32], count: usize, clause: u32, literal: u32) -> Left {
        self.call(
            Door::Remove,
            &Given {
                stack,
                count,
                clause,
                literal,
                ..given(table)
            },
        )
    }

    pub fn next_blocked(&mut self, table: &Table, stack: &[u32], count: usize) -> Left {
        self.call(
            Door::NextBlocked,
            &Given {
                stack,
                count,
                ..given(table)
            },
        )
    }

    pub fn check_stack(&mut self, table: &Table, stack: &[u32], count: usize) -> Left {
        self.call(
            Door::CheckStack,
            &Given {
                stack,
                count,
                ..given(table)
            },
        )
    }

    pub fn rebuild(&mut self, table: &Table, stack: &[u32], count: usize, vals: &[u8]) -> Left {
        self.call(
            Door::Rebuild,
            &Given {
                stack,
                count,
                vals,
                ..given(table)
            },
        )
    }

    pub fn write_saved(&mut self, table: &Table, stack: &[u32], count: usize, out_len: usize) -> Left {
        let out: Vec<u8> = self.old(out_len);
        self.call(
            Door::WriteSaved,
            &Given {
                stack,
                count,
                out: &out,
                ..given(table)
            },
        )
    }

    /// Reads a form into buffers with enough room, at times a little more, of random old contents.
    pub fn read_saved(&mut self, form: &[u8]) -> Left {
        let (more_lits, more_offs, more_stack) = (self.random.below(3), self.random.below(3), self.random.below(3));
        self.read_saved_into(form, ROOM_LITERALS + more_lits, ROOM_OFFSETS + more_offs, ROOM_STACK + more_stack)
    }

    pub fn read_saved_into(&mut self, form: &[u8], lits_len: usize, offs_len: usize, stack_len: usize) -> Left {
        let lits: Vec<u16> = self.old(lits_len);
        let offs: Vec<u32> = self.old(offs_len);
        let stack: Vec<u32> = self.old(stack_len);
        self.call(
            Door::ReadSaved,
            &Given {
                bytes: form,
                lits: &lits,
                offs: &offs,
                stack: &stack,
                ..Given::default()
            },
        )
    }
}

impl Default for Compare {
    fn default() -> Compare {
        Compare::new()
    }
}

fn given(table: &Table) -> Given<'_> {
    Given {
        n: table.n,
        m: table.m,
        lits: &table.lits,
        offs: &table.offs,
        ..Given::default()
    }
}

/// The cells of a buffer if the door may write it.
fn written<T: Cell>(is_written: bool, lent: &Lent<T>) -> Vec<T> {
    if is_written {
        lent.cells().to_vec()
    } else {
        Vec::new()
    }
}

/// Notes the first cell in which a buffer is not what it must be.
fn compare<T: Cell>(name: &str, got: &Lent<T>, right: &Lent<T>, faults: &mut Vec<String>) {
    if let Some((at, mine, theirs)) = got.difference(right) {
        let len = right.cells().len() as isize;
        let canary = if at < 0 || at >= len { " (a canary)" } else { "" };
        faults.push(format!(
            "{} cell {}{}, of {} lent: is {:?}, must be {:?}",
            name, at, canary, len, mine, theirs
        ));
    }
}

/// The call by the second program. For an answer of fewer than four cells the interface says: "then nothing was done, and no cell of any
/// buffer has changed".
fn by_second(door: Door, given: &Given, right: &mut Buffers) -> (bool, Said) {
    let Given {
        n,
        m,
        count,
        clause,
        literal,
        k,
        ..
    } = *given;
    if door == Door::IsSound {
        let why = fault(n, m, right.lits.cells(), right.offs.cells()).unwrap_or("sound");
        let sound = calls::is_sound(n, m, right.lits.cells(), right.offs.cells());
        return (sound, Said { cells: [0; 4], why });
    }
    if right.answer.cells().len() < 4 {
        return (
            false,
            Said {
                cells: [0; 4],
                why: "a short answer",
            },
        );
    }
    let said = match door {
        Door::IsSound => unreachable!("it has no answer"),
        Door::ClauseLiterals => calls::clause_literals(n, m, right.lits.cells(), right.offs.cells(), k),
        Door::ReadText => calls::read_text(right.bytes.cells(), right.lits.cells_mut(), right.offs.cells_mut()),
        Door::Eliminate => calls::eliminate(n, m, right.lits.cells(), right.offs.cells(), right.stack.cells_mut()),
        Door::Remove => calls::remove(
            n,
            m,
            right.lits.cells(),
            right.offs.cells(),
            right.stack.cells_mut(),
            count,
            clause,
            literal,
        ),
        Door::NextBlocked => calls::next_blocked(n, m, right.lits.cells(), right.offs.cells(), right.stack.cells(), count),
        Door::CheckStack => calls::check_stack(n, m, right.lits.cells(), right.offs.cells(), right.stack.cells(), count),
        Door::Rebuild => calls::rebuild(
            n,
            m,
            right.lits.cells(),
            right.offs.cells(),
            right.stack.cells(),
            count,
            right.vals.cells_mut(),
        ),
        Door::WriteSaved => calls::write_saved(
            n,
            m,
            right.lits.cells(),
            right.offs.cells(),
            right.stack.cells(),
            count,
            right.out.cells_mut(),
        ),
        Door::ReadSaved => calls::read_saved(
            right.bytes.cells(),
            right.lits.cells_mut(),
            right.offs.cells_mut(),
            right.stack.cells_mut(),
        ),
    };
    right.answer.cells_mut()[..4].copy_from_slice(&said.cells);
    (true, said)
}

/// The call through the door.
fn by_door(door: Door, given: &Given, lent: &mut Buffers) -> bool {
    let Given {
        n,
        m,
        count,
        clause,
        literal,
        k,
        ..
    } = *given;
    let Buffers {
        lits,
        offs,
        stack,
        bytes,
        vals,
        out,
        answer,
    } = lent;
    let answer = answer.cells_mut();
    match door {
        Door::IsSound => doors::is_sound(n, m, lits.cells(), offs.cells()),
        Door::ClauseLiterals => doors::clause_literals(n, m, lits.cells(), offs.cells(), k, answer),
        Door::ReadText => doors::read_text(bytes.cells(), lits.cells_mut(), offs.cells_mut(), answer),
        Door::Eliminate => doors::eliminate(n, m, lits.cells(), offs.cells(), stack.cells_mut(), answer),
        Door::Remove => doors::remove(n, m, lits.cells(), offs.cells(), stack.cells_mut(), count, clause, literal, answer),
        Door::NextBlocked => doors::next_blocked(n, m, lits.cells(), offs.cells(), stack.cells(), count, answer),
        Door::CheckStack => doors::check_stack(n, m, lits.cells(), offs.cells(), stack.cells(), count, answer),
        Door::Rebuild => doors::rebuild(n, m, lits.cells(), offs.cells(), stack.cells(), count, vals.cells_mut(), answer),
        Door::WriteSaved => doors::write_saved(n, m, lits.cells(), offs.cells(), stack.cells(), count, out.cells_mut(), answer),
        Door::ReadSaved => doors::read_saved(bytes.cells(), lits.cells_mut(), offs.cells_mut(), stack.cells_mut(), answer),
    }
}

/// The inputs of a call in words, each buffer up to `shown` cells.
fn spoken(door: Door, given: &Given, shown: usize) -> String {
    fn cells<T: Debug>(name: &str, cells: &[T], shown: usize) -> String {
        let end = if cells.len() > shown { ", and more" } else { "" };
        format!("\n    {} ({}): {:?}{}", name, cells.len(), &cells[..cells.len().min(shown)], end)
    }
    if door.is_reader() {
        let text = given.bytes[..given.bytes.len().min(shown)].escape_ascii();
        let room = format!(
            "{} literals, {} offsets, {} stack words",
            given.lits.len(),
            given.offs.len(),
            given.stack.len()
        );
        return format!("{}{}\n    as text: {}", room, cells("bytes", given.bytes, shown), text);
    }
    let mut words = format!("n {}, m {}", given.n, given.m);
    words.push_str(&format!(
        ", k {}, count {}, clause {}, literal {}",
        given.k, given.count, given.clause, given.literal
    ));
    words.push_str(&cells("literals", given.lits, shown));
    words.push_str(&cells("offsets", given.offs, shown));
    words.push_str(&cells("stack", given.stack, shown));
    words.push_str(&cells("values", given.vals, shown));
    words.push_str(&format!("\n    output: {} bytes", given.out.len()));
    words
}
