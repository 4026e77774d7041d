//! The table of docs/SPEED.md: the timing run seven times, each time in a process of its own, and of each number the median.
use crate::bench::{self, BURSTS, BYTES, CHECKS, CONTIGUOUS, FLOOR, LOG, LOG_SIXTEEN, LOOP_BYTES, SIXTEEN};
use crate::gen::TYPICAL;
use std::process::{Command, Stdio};

const RUNS: usize = 7;

/// A row of one run: nanoseconds of the Rust, of the archive before where there is one, and of ours.
struct Row {
    name: String,
    unit: String,
    ns: Vec<f64>,
}

fn rows(text: &str) -> Vec<Row> {
    text.lines()
        .map(|line| {
            let mut parts = line.split('\t').map(String::from);
            let mut next = || parts.next().expect("a row has a name and a unit");
            let (name, unit) = (next(), next());
            Row { name, unit, ns: parts.map(|ns| ns.parse().expect("a time is a number")).collect() }
        })
        .collect()
}

/// What stands in each run's row of this name.
fn column<'a>(runs: &'a [Vec<Row>], name: &'a str) -> impl Iterator<Item = &'a Row> {
    runs.iter().map(move |rows| rows.iter().find(|row| row.name == name).expect("each run has each row"))
}

fn median(numbers: impl Iterator<Item = f64>) -> f64 {
    let mut all: Vec<f64> = numbers.collect();
    all.sort_by(f64::total_cmp);
    all[all.len() / 2]
}

/// The median of a ratio, and the least and the greatest.
fn ratio(numbers: impl Iterator<Item = f64> + Clone) -> String {
    let least = numbers.clone().fold(f64::MAX, f64::min);
    let greatest = numbers.clone().fold(0.0, f64::max);
    format!("{:.2} | {least:.2} to {greatest:.2}", median(numbers))
}

pub fn heading(columns: &[String]) {
    println!("| {} |\n|{}", columns.join(" | "), "---|".repeat(columns.len()));
}

/// Starts `command` seven times, which prints the rows of one run, and prints the table.
pub fn run(command: &[String], emulated: bool) {
    println!("machine: {}{}", machine(), if emulated { ", emulated: only the ratios say anything" } else { "" });
    println!("load before: {}", load());
    let runs: Vec<Vec<Row>> = (0..RUNS)
        .map(|_| {
            let run = Command::new(&command[0]).args(&command[1..]).stderr(Stdio::inherit()).output().expect("the timing starts");
            assert!(run.status.success(), "the timing failed");
            rows(&String::from_utf8_lossy(&run.stdout))
        })
        .collect();
    println!("load after: {}", load());
    let (rounds, listings) = (bench::ROUNDS, bench::LISTINGS);
    println!("each number is the median of {RUNS} runs; a run is the best of {rounds} rounds of each side, in turn ({listings} for the listing)\n");
    table(&runs);
    println!();
    floors(&runs);
    println!();
    logs(&runs);
    println!();
    bursts(&runs);
}

fn table(runs: &[Vec<Row>]) {
    let before = bench::archives().len() > 1;
    let columns: &[&str] = if before {
        &["row", "the Rust, ns", "before, ns", "ours, ns", "for each", "before : Rust", "ours : Rust", "in 7 runs", "ours : before", "in 7 runs"]
    } else {
        &["row", "the Rust, ns", "ours, ns", "for each", "ours : Rust", "in 7 runs"]
    };
    heading(&columns.iter().map(|text| text.to_string()).collect::<Vec<_>>());
    for Row { name, unit, ns } in &runs[0] {
        let all: Vec<&Row> = column(runs, name).collect();
        let side = |i: usize| all.iter().map(move |row| row.ns[i]);
        let of = |one: usize, other: usize| all.iter().map(move |row| row.ns[one] / row.ns[other]);
        let ours = ns.len() - 1;
        let times: Vec<String> = (0..ns.len()).map(|i| format!("{:.2}", median(side(i)))).collect();
        if !before {
            println!("| {name} | {} | {unit} | {} |", times.join(" | "), ratio(of(ours, 0)));
        } else if ours == 2 {
            println!("| {name} | {} | {unit} | {:.2} | {} | {} |", times.join(" | "), median(of(1, 0)), ratio(of(2, 0)), ratio(of(2, 1)));
        } else {
            println!("| {name} | {} |  | {} | {unit} |  | {} |  |  |", times[0], times[1], ratio(of(ours, 0)));
        }
    }
}

/// How many times its floor a stream of typical frames takes on each side. The floor of the contiguous row is timed as one loop, the calls and the
/// check bytes in it; the floor in 1-byte pieces is the loop's time and the check bytes' together.
fn floors(runs: &[Vec<Row>]) {
    let sides: &[&str] = if bench::archives().len() > 1 { &["the Rust", "before", "ours"] } else { &["the Rust", "ours"] };
    let mut columns = vec!["from the floor".to_string(), "for each".to_string()];
    columns.extend(sides.iter().map(|side| format!("{side}: floor, ns")));
    columns.extend(sides.iter().map(|side| format!("{side}: times it")));
    heading(&columns);
    let line = |name: &str, unit: &str, floor: &dyn Fn(usize) -> Vec<f64>| {
        let mut cells: Vec<String> = (0..sides.len()).map(|side| format!("{:.2}", median(floor(side).into_iter()))).collect();
        for side in 0..sides.len() {
            cells.push(format!("{:.2}", median(column(runs, name).zip(floor(side)).map(|(row, floor)| row.ns[side] / floor))));
        }
        println!("| {name} | {unit} | {} |", cells.join(" | "));
    };
    line(CONTIGUOUS, "frame", &|side| column(runs, FLOOR).map(|row| row.ns[side]).collect());
    let frame = TYPICAL.iter().map(|(_, payload)| payload + 4).sum::<usize>() as f64 / TYPICAL.len() as f64;
    line(BYTES, "byte", &|side| {
        column(runs, LOOP_BYTES).zip(column(runs, CHECKS)).map(|(calls, checks)| calls.ns[side] + checks.ns[side] / frame).collect()
    });
}

/// A log beside the stream parser over its frames, both ours and both in the same runs: time, and bytes a second.
fn logs(runs: &[Vec<Row>]) {
    let (frames, bytes, log_bytes) = bench::lengths();
    let (frame, entry) = (bytes as f64 / frames as f64, log_bytes as f64 / frames as f64);
    let columns = ["a log beside the stream", "log, ns an entry", "MB of log a second", "stream, ns a frame", "MB of frames a second"];
    heading(&[&columns[..], &["log : stream", "in 7 runs"]].concat().iter().map(|text| text.to_string()).collect::<Vec<_>>());
    let ours = |name, times: f64| column(runs, name).map(move |row| row.ns[row.ns.len() - 1] * times);
    for (name, log, stream, unit) in [("in one piece", LOG, CONTIGUOUS, 1.0), ("in 16-byte pieces", LOG_SIXTEEN, SIXTEEN, frame)] {
        let (log_ns, stream_ns) = (median(ours(log, 1.0)), median(ours(stream, unit)));
        let ratios: Vec<f64> = ours(log, 1.0).zip(ours(stream, unit)).map(|(log, stream)| log / stream).collect();
        let (log_speed, stream_speed) = (entry / log_ns * 1e3, frame / stream_ns * 1e3);
        println!("| {name} | {log_ns:.2} | {log_speed:.0} | {stream_ns:.2} | {stream_speed:.0} | {} |", ratio(ratios.into_iter()));
    }
    println!("\nthe log has {log_bytes} bytes and {frames} entries, whose frames have {bytes} bytes");
}

/// A burst beside a call for each of its frames, ours and the Rust's, all in the same runs.
fn bursts(runs: &[Vec<Row>]) {
    let columns = ["channel frames", "burst, ns", "a frame", "our calls, ns", "a frame", "the Rust's calls, ns", "a frame"];
    let ratios = ["burst : our calls", "in 7 runs", "burst : Rust", "in 7 runs"];
    heading(&[&columns[..], &ratios].concat().iter().map(|text| text.to_string()).collect::<Vec<_>>());
    for (count, burst, calls) in BURSTS {
        let ours = |name| column(runs, name).map(|row| row.ns[row.ns.len() - 1]).collect::<Vec<_>>();
        let (burst, calls, rust) = (ours(burst), ours(calls), column(runs, burst).map(|row| row.ns[0]).collect::<Vec<_>>());
        let time = |side: &[f64]| format!("{:.2} | {:.2}", median(side.iter().map(|ns| ns * count as f64)), median(side.iter().copied()));
        let of = |other: &[f64]| ratio(burst.iter().zip(other).map(|(burst, other)| burst / other));
        println!("| {count} | {} | {} | {} | {} | {} |", time(&burst), time(&calls), time(&rust), of(&calls), of(&rust));
    }
}

pub fn load() -> String {
    std::fs::read_to_string("/proc/loadavg").map_or_else(|_| "unknown".to_string(), |text| text.split(' ').take(3).collect::<Vec<_>>().join(" "))
}

pub fn machine() -> String {
    let text = std::fs::read_to_string("/proc/cpuinfo").unwrap_or_default();
    let model = text.lines().find_map(|line| line.strip_prefix("model name")?.split_once(':'));
    model.map_or_else(|| "unknown".to_string(), |(_, name)| name.trim().to_string())
}
