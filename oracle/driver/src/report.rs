//! What was compared, how many answers differ, and the smallest input of the first difference.
use std::time::Instant;

/// One family of inputs.
pub struct Family {
    name: &'static str,
    compared: u64,
    differ: u64,
    listed: u64,
    first: Option<String>,
    begun: Instant,
}

impl Family {
    /// That many answers were compared.
    pub fn compared(&mut self, answers: u64) {
        self.compared += answers;
    }
    /// A difference. `describe` is called for the first one alone, and finds the smallest input.
    pub fn differs(&mut self, describe: impl FnOnce() -> String) {
        self.differ += 1;
        if self.first.is_none() {
            self.first = Some(describe());
        }
    }
    /// A difference of a kind that docs/DIFFERENCES.md may list.
    pub fn differs_as(&mut self, listed: bool, describe: impl FnOnce() -> String) {
        if listed {
            self.listed += 1;
        } else {
            self.differs(describe);
        }
    }
    /// Compares one answer.
    pub fn same<T: PartialEq + std::fmt::Debug>(&mut self, rust: T, ours: T, input: impl FnOnce() -> String) {
        self.compared += 1;
        if rust != ours {
            self.differs(|| format!("{}: the Rust {rust:?}, ours {ours:?}", input()));
        }
    }
}

pub struct Report {
    differences: String,
    compared: u64,
    differ: u64,
    listed: u64,
    left_out: u64,
}

impl Report {
    /// `differences` is the text of docs/DIFFERENCES.md.
    pub fn new(differences: String) -> Report {
        Report { differences, compared: 0, differ: 0, listed: 0, left_out: 0 }
    }
    /// Whether a row of docs/DIFFERENCES.md begins with this input, the smallest of its kind.
    pub fn lists(&self, input: &str) -> bool {
        self.differences.lines().any(|line| line.starts_with(&format!("| {input} |")))
    }
    /// Says that a family was left out, and why.
    pub fn left_out(&mut self, name: &str, why: &str) {
        self.left_out += 1;
        println!("{name:<58} NOT COMPARED: {why}");
    }
    /// Runs one family and prints its line.
    pub fn family(&mut self, name: &'static str, run: impl FnOnce(&mut Family)) {
        let mut f = Family { name, compared: 0, differ: 0, listed: 0, first: None, begun: Instant::now() };
        run(&mut f);
        self.end(f);
    }
    fn end(&mut self, f: Family) {
        let listed = if f.listed > 0 { format!(", {} differ as listed", f.listed) } else { String::new() };
        println!("{:<58} {:>11} compared {:>6} differ{listed}  ({:.1} s)", f.name, f.compared, f.differ, f.begun.elapsed().as_secs_f64());
        if let Some(first) = &f.first {
            println!("    smallest input of the first difference: {first}");
        }
        self.compared += f.compared;
        self.differ += f.differ;
        self.listed += f.listed;
    }
    /// Prints the sums. The status: 1 where an answer differs that is not listed, 2 where a family was left out.
    pub fn finish(self) -> i32 {
        println!("{:<58} {:>11} compared {:>6} differ, {} differ as listed", "in all", self.compared, self.differ, self.listed);
        match self {
            Report { differ: 0, left_out: 0, .. } => 0,
            Report { differ: 0, .. } => 2,
            _ => 1,
        }
    }
}
