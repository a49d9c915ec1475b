//! CaDiCaL as a peer: made to do blocked clause elimination alone, and asked for its verdict on a book.
use crate::books::Book;
use std::fs;
use std::path::PathBuf;
use std::process::{Command, Stdio};

/// Blocked clause elimination alone, to its end. CaDiCaL runs it within a round of variable elimination, of which the occurrence limit 0 leaves only the
/// removal of clauses with a pure literal; these are blocked too. Elimination takes literals up again whenever a clause with their negation goes, so
/// that one call runs to the end. Unit clauses are propagated before all else: a book with units comes out otherwise.
pub const OPTIONS: [&str; 19] = [
    "--plain",
    "--inprocessing=1",
    "--lucky=0",
    "--elim=1",
    "--elimocclim=0",
    "--elimbackward=0",
    "--elimlimited=0",
    "--elimsubst=0",
    "--elimands=0",
    "--elimequivs=0",
    "--elimites=0",
    "--elimxors=0",
    "--block=1",
    "--blockmaxclslim=2000000000",
    "--blockminclslim=2",
    "--blockocclim=2000000000",
    "-P1",
    "-c",
    "0",
];

/// A clause as DIMACS literals, rising, so that equal sets are equal.
pub type Clause = Vec<i32>;

/// What CaDiCaL left and what it removed: the clauses with their blocking literals, oldest first.
pub struct Shrunk {
    pub left: Vec<Clause>,
    pub removed: Vec<(Clause, i32)>,
}

/// A folder of its own for the files that CaDiCaL reads and writes; it goes with the value.
pub struct Desk {
    folder: PathBuf,
}

impl Desk {
    pub fn new() -> Desk {
        let folder = std::env::temp_dir().join(format!("broodchamber-peers-{}", std::process::id()));
        fs::create_dir_all(&folder).expect("a folder for CaDiCaL's files");
        Desk { folder }
    }

    fn path(&self, name: &str) -> PathBuf {
        self.folder.join(name)
    }

    /// CaDiCaL's version, or nothing where it is not installed.
    pub fn version() -> Option<String> {
        let out = Command::new("cadical").arg("--version").output().ok()?;
        Some(String::from_utf8_lossy(&out.stdout).trim().to_string())
    }

    /// Lays the book down for the calls below.
    pub fn lay(&self, book: &Book) {
        fs::write(self.path("book.cnf"), book.text()).expect("the book for CaDiCaL");
    }

    /// One whole process of elimination on the book: reads the text, writes what is left and what went.
    pub fn run(&self) {
        let status = Command::new("cadical")
            .args(["-q", "-n", "-f"])
            .args(OPTIONS)
            .arg("-o")
            .arg(self.path("left.cnf"))
            .arg("-e")
            .arg(self.path("removed.txt"))
            .arg(self.path("book.cnf"))
            .stdout(Stdio::null())
            .status()
            .expect("cadical");
        assert!(
            matches!(status.code(), Some(0) | Some(10) | Some(20)),
            "cadical ended with {}",
            status
        );
    }

    /// What the last run wrote.
    pub fn shrunk(&self) -> Shrunk {
        let left = fs::read_to_string(self.path("left.cnf")).expect("what CaDiCaL left");
        let left = groups(
            left.lines()
                .filter(|line| !line.starts_with('p'))
                .flat_map(str::split_ascii_whitespace),
        );
        let removed = fs::read_to_string(self.path("removed.txt")).expect("what CaDiCaL removed");
        let removed = groups(removed.split_ascii_whitespace());
        let pairs = removed.chunks_exact(2).rev().map(|pair| (sorted(pair[0].clone()), pair[1][0]));
        Shrunk {
            left: left.into_iter().map(sorted).collect(),
            removed: pairs.collect(),
        }
    }

    /// CaDiCaL's verdict on the book: whether it can be satisfied.
    pub fn verdict(&self) -> bool {
        let status = Command::new("cadical")
            .args(["-q", "-n"])
            .arg(self.path("book.cnf"))
            .stdout(Stdio::null())
            .status();
        match status.expect("cadical").code() {
            Some(10) => true,
            Some(20) => false,
            code => panic!("cadical gave no verdict: {:?}", code),
        }
    }
}

impl Default for Desk {
    fn default() -> Desk {
        Desk::new()
    }
}

impl Drop for Desk {
    fn drop(&mut self) {
        let _ = fs::remove_dir_all(&self.folder);
    }
}

/// Numbers up to each 0.
fn groups<'a>(words: impl Iterator<Item = &'a str>) -> Vec<Clause> {
    let numbers: Vec<i32> = words.map(|word| word.parse().expect("a number from CaDiCaL")).collect();
    let mut groups: Vec<Clause> = numbers.split(|&x| x == 0).map(<[i32]>::to_vec).collect();
    groups.pop();
    groups
}

pub fn sorted(mut clause: Clause) -> Clause {
    clause.sort_unstable();
    clause
}
