//! Compares the library with the second program.
//!
//!     compare gate [SHRINK]                     the fixed seeds; ends with one line, and with status 1 at the first difference
//!     compare part [SHRINK]                     the same with a part of the cases, for where the program is emulated
//!     compare soak [SHRINK]                     the random groups with fresh seeds, until it is stopped
//!     compare again SEED GROUP CASE [SHRINK]    one case once more, every call printed

use std::process::exit;
use std::time::{Instant, SystemTime, UNIX_EPOCH};
use tests::compare::groups::{groups, Group};
use tests::compare::{known, Compare};

/// The seeds of the gate.
const SEEDS: [u64; 2] = [1, 20_260];

fn main() {
    let words: Vec<String> = std::env::args().skip(1).collect();
    let faults = known::second_alone();
    if !faults.is_empty() {
        println!("{}", faults.join("\n"));
        exit(1);
    }
    let mut compare = Compare::new();
    match words.iter().map(String::as_str).collect::<Vec<&str>>().as_slice() {
        [mode @ ("gate" | "part")] => gate(&mut compare, *mode == "part"),
        [mode @ ("gate" | "part"), shrink] => {
            compare.shrink = Some(shrink.to_string());
            gate(&mut compare, *mode == "part");
        }
        ["soak"] => soak(&mut compare),
        ["soak", shrink] => {
            compare.shrink = Some(shrink.to_string());
            soak(&mut compare);
        }
        ["again", seed, group, case] => again(&mut compare, seed, group, case),
        ["again", seed, group, case, shrink] => {
            compare.shrink = Some(shrink.to_string());
            again(&mut compare, seed, group, case);
        }
        _ => {
            println!("compare gate [SHRINK] | compare part [SHRINK] | compare soak [SHRINK] | compare again SEED GROUP CASE [SHRINK]");
            exit(2);
        }
    }
}

/// The cases of a group, or the part of them, with one seed.
fn run(compare: &mut Compare, group: &Group, seed: u64, part: bool) {
    let (before, start) = (compare.calls, Instant::now());
    let cases = if part { group.part() } else { (0..group.cases).collect() };
    for &case in &cases {
        compare.begin(seed, group.name, case);
        (group.run)(compare, case);
    }
    let time = start.elapsed().as_secs_f64();
    let of = if part { format!("of {:>5} ", group.cases) } else { String::new() };
    println!(
        "{:<12} seed {:<20} {:>8} {}cases {:>9} calls {:>7.1} s",
        group.name,
        seed,
        cases.len(),
        of,
        compare.calls - before,
        time
    );
}

fn gate(compare: &mut Compare, part: bool) {
    println!("K1 to K10: the second program alone is right");
    if part {
        println!("a part of the cases is compared: where this program is emulated, all of them take too long");
    }
    if compare.shrink.is_none() {
        println!("no program shrink was named: its groups make no calls");
    }
    for group in groups() {
        let seeds = if group.random { &SEEDS[..] } else { &SEEDS[..1] };
        for &seed in seeds {
            run(compare, &group, seed, part);
        }
    }
    compare.tally.print();
    let missing = compare.tally.missing();
    if !missing.is_empty() {
        println!("{}", missing.join("\n"));
        exit(1);
    }
    println!("compared {} calls, 0 differences", compare.calls);
}

fn soak(compare: &mut Compare) {
    let mut seed = SystemTime::now()
        .duration_since(UNIX_EPOCH)
        .map_or(0, |time| time.as_nanos() as u64);
    loop {
        for group in groups().iter().filter(|group| group.random) {
            run(compare, group, seed, false);
        }
        println!("compared {} calls, 0 differences", compare.calls);
        seed = seed.wrapping_add(1);
    }
}

fn again(compare: &mut Compare, seed: &str, group: &str, case: &str) {
    let found = groups().into_iter().find(|known| known.name == group);
    let (seed, group, case) = match (seed.parse(), found, case.parse()) {
        (Ok(seed), Some(group), Ok(case)) => (seed, group, case),
        _ => {
            let names: Vec<&str> = groups().iter().map(|group| group.name).collect();
            println!("a seed, one of these groups, a case: {}", names.join(", "));
            exit(2);
        }
    };
    if case >= group.cases && !group.random {
        println!("the group {} has {} cases", group.name, group.cases);
        exit(2);
    }
    compare.loud = true;
    compare.begin(seed, group.name, case);
    (group.run)(compare, case);
    println!("compared {} calls, 0 differences", compare.calls);
}
