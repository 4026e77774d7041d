//! Two uploads of 100 MB compared, timed: the program diff beside the port's `list` of both, and beside the Rust's listing of both and diff(1).
use crate::gen::{self, Rng};
use crate::medians::{heading, load, machine};
use std::fs::{self, File};
use std::io::{BufRead, BufReader, BufWriter, Read, Seek, SeekFrom, Write};
use std::os::unix::process::CommandExt;
use std::path::{Path, PathBuf};
use std::process::{Command, Stdio};
use std::time::Instant;

/// How many times each program is run on a pair, all in turn. The best counts.
const ROUNDS: usize = 7;
/// The bytes of an upload.
const BYTES: usize = 100_000_000;
/// One frame in so many is changed.
const ONE_IN: usize = 1000;

/// Each program is a command with its words.
pub struct Programs {
    pub diff: Vec<String>,
    pub list: Vec<String>,
    pub rust_list: Vec<String>,
    /// Where the uploads and what is written stand.
    pub folder: PathBuf,
}

/// Seconds of a processor, its own and the system's, seconds by the clock, and the most memory, in KiB.
#[derive(Clone, Copy)]
struct Took {
    processor: f64,
    wall: f64,
    peak: i64,
}

impl Took {
    /// One program behind another.
    fn then(self, next: Took) -> Took {
        Took { processor: self.processor + next.processor, wall: self.wall + next.wall, peak: self.peak.max(next.peak) }
    }
    fn best(self, again: Took) -> Took {
        Took { processor: self.processor.min(again.processor), wall: self.wall.min(again.wall), peak: self.peak.max(again.peak) }
    }
    fn cell(&self) -> String {
        format!("{:.3} ({:.3})", self.processor, self.wall)
    }
}

/// Runs a program from file to file. It ends with 0 or, where it finds a difference, with 1.
fn run(command: &[String], input: Option<&Path>, output: &Path) -> Took {
    // The system's own layout: user and system time, each as seconds and microseconds, the most memory, and thirteen counts.
    extern "C" {
        fn wait4(id: i32, status: *mut i32, options: i32, usage: *mut [i64; 18]) -> i32;
    }
    let mut program = Command::new(&command[0]);
    program.args(&command[1..]).stdin(input.map_or_else(Stdio::null, |path| File::open(path).expect("the upload was written").into()));
    program.stdout(File::create(output).expect("the output can be written"));
    // With something to do between, a program is started by a fork. Else it would run in this one's memory at first, and that be counted as its own.
    unsafe { program.pre_exec(|| Ok(())) };
    let began = Instant::now();
    let id = program.spawn().unwrap_or_else(|e| panic!("{command:?}: {e}")).id() as i32;
    let (mut status, mut usage) = (0, [0; 18]);
    assert_eq!(unsafe { wait4(id, &mut status, 0, &mut usage) }, id, "the system tells what a program took");
    let wall = began.elapsed().as_secs_f64();
    assert!(status == 0 || status == 1 << 8, "{command:?} failed");
    Took { processor: (usage[0] + usage[2]) as f64 + (usage[1] + usage[3]) as f64 * 1e-6, wall, peak: usage[4] }
}

/// Changes a payload byte of some frames, and the check byte with it. Answers how many.
fn change(r: &mut Rng, frames: &mut [u8]) -> u64 {
    let (mut at, mut changed) = (0, 0);
    while at < frames.len() {
        let check = at + 1 + usize::from(frames[at + 1]);
        if r.below(ONE_IN) == 0 {
            frames[at + 3 + r.below(check - at - 3)] ^= 1 + r.below(255) as u8;
            frames[check] = gen::check_byte(&frames[at + 2..check]);
            changed += 1;
        }
        at = check + 1;
    }
    changed
}

/// Writes typical frames, to the right as they are or with some changed. Answers how many are.
fn write_frames(r: &mut Rng, is_changed: bool, left: &mut impl Write, right: &mut impl Write) -> std::io::Result<u64> {
    let (mut written, mut changed) = (0, 0);
    while written < BYTES {
        let mut frames = gen::typical(r, 20_000);
        written += frames.len();
        left.write_all(&frames)?;
        changed += if is_changed { change(r, &mut frames) } else { 0 };
        right.write_all(&frames)?;
    }
    Ok(changed)
}

/// Writes noise, to the right without the byte in the middle.
fn write_noise(r: &mut Rng, left: &mut impl Write, right: &mut impl Write) -> std::io::Result<()> {
    for at in 0..BYTES {
        let byte = [r.byte()];
        left.write_all(&byte)?;
        if at != BYTES / 2 {
            right.write_all(&byte)?;
        }
    }
    Ok(())
}

/// The number of differences in the last line that the program diff wrote.
fn named(output: &Path) -> u64 {
    let mut file = File::open(output).expect("diff wrote");
    let mut end = String::new();
    let length = file.metadata().expect("a file has a length").len();
    file.seek(SeekFrom::Start(length.saturating_sub(60))).and_then(|_| file.read_to_string(&mut end)).expect("the end can be read");
    end.trim_end().rsplit(' ').next().and_then(|count| count.parse().ok()).expect("the last line ends with a count")
}

/// The lines of one listing or the other that diff(1) wrote.
fn lines(output: &Path) -> usize {
    let file = BufReader::new(File::open(output).expect("diff(1) wrote"));
    file.lines().filter(|line| line.as_ref().is_ok_and(|line| line.starts_with(['<', '>']))).count()
}

/// The cells of a pair's column.
fn column(programs: &Programs, write: impl FnOnce(&mut BufWriter<File>, &mut BufWriter<File>) -> std::io::Result<Option<u64>>) -> Vec<String> {
    let file = |name: &str| programs.folder.join(name);
    let (left, right, output) = (file("left"), file("right"), file("output"));
    let (left_list, right_list) = (file("left.listing"), file("right.listing"));
    let expected = {
        let create = |path| BufWriter::new(File::create(path).expect("an upload can be written"));
        let (mut left, mut right) = (create(&left), create(&right));
        write(&mut left, &mut right).and_then(|count| left.flush().and(right.flush()).map(|_| count)).expect("the uploads can be written")
    };
    let with = |command: &[String], one: &Path, two: &Path| {
        let words = [one, two].map(|path| path.to_string_lossy().into_owned());
        run(&[command, &words].concat(), None, &output)
    };
    // As many bytes as both have, so that cmp(1) has no complaint about an end.
    let compare_bytes = ["cmp".to_string(), "-l".to_string(), format!("-n{}", BYTES - 1)];
    let list = |command: &[String]| run(command, Some(&left), &left_list).then(run(command, Some(&right), &right_list));
    let (mut differ, mut other_lines) = (0, 0);
    let mut round = || {
        let diff = with(&programs.diff, &left, &right);
        differ = named(&output);
        let bytes = with(&compare_bytes, &left, &right);
        let ours = list(&programs.list);
        let rust = list(&programs.rust_list);
        let lists = with(&["diff".to_string()], &left_list, &right_list);
        other_lines = lines(&output);
        [diff, ours, rust, lists, rust.then(lists), bytes]
    };
    let mut best = round();
    for _ in 1..ROUNDS {
        let again = round();
        best = std::array::from_fn(|i| best[i].best(again[i]));
    }
    assert!(expected.is_none_or(|count| differ == count), "{differ} differences, and {expected:?} were made");
    let [diff, ours, _, lists, both, _] = &best;
    let mut cells: Vec<String> = best.iter().map(Took::cell).collect();
    cells.extend([ours, both].map(|other| format!("{:.2}", diff.processor / other.processor)));
    cells.extend([differ.to_string(), other_lines.to_string(), diff.peak.to_string(), lists.peak.to_string()]);
    cells
}

const ROWS: [&str; 12] = [
    "`diff`",
    "`list` of both",
    "the Rust's listing of both",
    "diff(1) of its listings",
    "the Rust's listing and diff(1)",
    "cmp(1) with -l, of the uploads",
    "`diff` : `list` of both",
    "`diff` : the Rust's listing and diff(1)",
    "differences that `diff` names",
    "lines that diff(1) names",
    "most memory of `diff`, KiB",
    "most memory of diff(1), KiB",
];

/// Times all programs on three pairs of uploads, and prints the table.
pub fn time(programs: &Programs, seed: u64, emulated: bool) {
    println!("machine: {}{}", machine(), if emulated { ", emulated: only the ratios say anything" } else { "" });
    println!("load before: {}", load());
    fs::create_dir_all(&programs.folder).expect("the folder can be made");
    let mut r = Rng::new(seed);
    let columns = [
        column(programs, |left, right| write_frames(&mut r, false, left, right).map(Some)),
        column(programs, |left, right| write_frames(&mut r, true, left, right).map(Some)),
        column(programs, |left, right| write_noise(&mut r, left, right).map(|_| None)),
    ];
    let _ = fs::remove_dir_all(&programs.folder);
    println!("load after: {}", load());
    println!("seconds of a processor, and in brackets by the clock: each the best of {ROUNDS} runs, all programs in turn\n");
    let pairs = ["frames, equal", "frames, one in a thousand changed", "noise, a byte lost"];
    heading(&[&[format!("two uploads of {} MB", BYTES / 1_000_000)], &pairs.map(String::from)[..]].concat());
    for (i, row) in ROWS.iter().enumerate() {
        println!("| {row} | {} |", columns.iter().map(|cells| cells[i].as_str()).collect::<Vec<_>>().join(" | "));
    }
}
