//! The listing programs, the Rust's (rust_list.rs) and the port's, without positions and with them, run on the same bytes.
use crate::gen::{self, Rng};
use crate::report::Report;
use std::fs::{self, File};
use std::path::{Path, PathBuf};
use std::process::Command;

/// Each program is a command with its words; beside `file` stand what they read and what they write.
pub struct Listing {
    pub rust: Vec<String>,
    /// The earlier one, where it is timed.
    pub before: Option<Vec<String>>,
    pub ours: Option<Vec<String>>,
    /// The one with positions.
    pub ours_where: Option<Vec<String>>,
    pub file: PathBuf,
}

/// What a program took, in seconds of a processor, its own and the system's for it, and what it wrote.
pub struct Run {
    pub seconds: f64,
    pub lines: Vec<u8>,
}

/// Seconds of a processor that the programs took that were started here and have ended. Other work on the machine is not in it.
fn taken() -> f64 {
    // The system's own layout: user and system time, each as seconds and microseconds, and fourteen counts.
    extern "C" {
        fn getrusage(who: i32, usage: *mut [i64; 18]) -> i32;
    }
    const CHILDREN: i32 = -1;
    let mut usage = [0; 18];
    assert_eq!(unsafe { getrusage(CHILDREN, &mut usage) }, 0, "the system tells what a program took");
    (usage[0] + usage[2]) as f64 + (usage[1] + usage[3]) as f64 * 1e-6
}

impl Listing {
    fn list(&self, command: &[String], output: &Path) -> Run {
        let input = File::open(&self.file).expect("the stream was written");
        let file = File::create(output).expect("the listing can be written");
        let before = taken();
        let status = Command::new(&command[0]).args(&command[1..]).stdin(input).stdout(file).status();
        assert!(status.expect("the listing program starts").success(), "{command:?} failed");
        let seconds = taken() - before;
        let lines = fs::read(output).expect("the listing was written");
        let _ = fs::remove_file(output);
        Run { seconds, lines }
    }

    /// What each makes of a stream.
    fn each<'c>(&self, stream: &[u8], commands: impl Iterator<Item = &'c Vec<String>>) -> Vec<Run> {
        fs::write(&self.file, stream).expect("the stream can be written");
        let runs = commands.map(|command| self.list(command, &self.file.with_extension("listing"))).collect();
        let _ = fs::remove_file(&self.file);
        runs
    }

    /// The Rust's, the one before where there is one, and ours.
    pub fn run(&self, stream: &[u8]) -> Vec<Run> {
        self.each(stream, std::iter::once(&self.rust).chain(&self.before).chain(&self.ours))
    }

    /// Compares the lines.
    pub fn compare(&self, report: &mut Report, seed: u64) {
        let mut r = Rng::new(seed ^ 0x1157);
        let mut noise = vec![0; 300_000];
        r.fill(&mut noise);
        let streams = [
            vec![],
            vec![0xC8, 2, 0, 0, 0x55, 0xC8, 2, 0],
            noise,
            vec![0xC8; 100_000],
            gen::stream(&mut r, 1_000_000),
            gen::typical(&mut r, 1_000_000),
        ];
        let programs: [(_, _, _, fn(&str) -> String); 2] = [
            ("listing: whole programs, every line", "list", &self.ours, str::to_string),
            ("listing with positions: whole programs, every line", "list_where", &self.ours_where, with_positions),
        ];
        for (name, program, command, of_rust) in programs {
            let Some(command) = command else {
                report.left_out(name, &format!("there is no program `{program}` (rt check {program})"));
                continue;
            };
            report.family(name, |family| {
                for stream in &streams {
                    let runs = self.each(stream, [&self.rust, command].into_iter());
                    let [rust, ours] = [&runs[0], &runs[1]].map(|run| String::from_utf8_lossy(&run.lines));
                    let rust = of_rust(&rust);
                    let mut lines = (rust.split('\n'), ours.split('\n'));
                    let mut n = 0;
                    loop {
                        match (lines.0.next(), lines.1.next()) {
                            (None, None) => break,
                            (one, two) => {
                                n += 1;
                                family.same(one, two, || format!("line {n} of a stream of {} bytes", stream.len()));
                            }
                        }
                    }
                }
            });
        }
    }
}

/// The Rust's lines, each behind the number of bytes that those before it dropped: a frame its own, which are 4 more than its payload, an error one.
fn with_positions(lines: &str) -> String {
    let mut position = 0;
    let each = lines.lines().map(|line| {
        let placed = format!("{position} {line}\n");
        let payload = line.strip_prefix("frame").and_then(|items| items.rsplit(' ').next());
        position += payload.map_or(1, |length| 4 + length.parse::<u64>().expect("a frame's line ends with its payload's length"));
        placed
    });
    each.collect()
}
