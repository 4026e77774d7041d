//! Runs the Rust original and the port on the same inputs and compares every answer; or times both. oracle/run starts it.
mod bench;
mod beyond;
mod bursts;
mod framing;
mod gen;
mod listing;
mod logs;
mod medians;
mod ours;
mod pairs;
mod positions;
mod queries;
mod record;
mod records;
mod report;
mod uploads;

use listing::Listing;
use pairs::Programs;
use report::Report;
use uploads::Uploads;

struct Options {
    seed: u64,
    bytes: u64,
    /// The repository's root.
    root: std::path::PathBuf,
    /// Whether both sides are timed, and not compared.
    bench: bool,
    /// Whether the comparison of two uploads is timed, and nothing else.
    bench_diff: bool,
    /// One run of the timing, by itself.
    once: bool,
    /// Where the sample of the Rust's answers is written, and nothing is compared.
    record: Option<String>,
    /// The emulator's command, where one runs this.
    emulator: Vec<String>,
    /// The port's listing program.
    list: Option<String>,
    /// The one with positions.
    list_where: Option<String>,
    /// An earlier one, to be timed too.
    before_list: Option<String>,
    /// The port's comparison of two uploads.
    diff: Option<String>,
}

const USAGE: &str = "oracle/run [--seed N] [--bytes N] [--bench [--before DIR]] [--bench-diff] [--record FILE] [--rust DIR] [--archive DIR]";

fn number(text: &str) -> u64 {
    text.parse::<f64>().ok().filter(|n| *n >= 0.0).unwrap_or_else(|| panic!("{text} is no number; usage: {USAGE}")) as u64
}

fn options() -> Options {
    let mut o = Options {
        seed: 1,
        bytes: 20_000_000,
        root: ".".into(),
        bench: false,
        bench_diff: false,
        once: false,
        record: None,
        emulator: vec![],
        list: None,
        list_where: None,
        before_list: None,
        diff: None,
    };
    let mut words = std::env::args().skip(1);
    while let Some(word) = words.next() {
        let mut next = || words.next().unwrap_or_else(|| panic!("{word} wants a value; usage: {USAGE}"));
        match word.as_str() {
            "--seed" => {
                let text = next();
                o.seed = text.parse().unwrap_or_else(|_| panic!("{text} is no seed; usage: {USAGE}"));
            }
            "--bytes" => o.bytes = number(&next()),
            "--root" => o.root = next().into(),
            "--bench" => o.bench = true,
            "--bench-diff" => o.bench_diff = true,
            "--once" => o.once = true,
            "--record" => o.record = Some(next()),
            "--emulator" => o.emulator = vec![next()],
            "--list" => o.list = Some(next()),
            "--where" => o.list_where = Some(next()),
            "--before-list" => o.before_list = Some(next()),
            "--diff" => o.diff = Some(next()),
            other => panic!("{other}? usage: {USAGE}"),
        }
    }
    o
}

/// The listing programs, those of the port as far as they are at hand.
fn listing(o: &Options) -> Listing {
    let command = |program: String| [o.emulator.clone(), vec![program]].concat();
    let beside = std::env::current_exe().expect("this program has a name").with_file_name("rust_list");
    Listing {
        rust: command(beside.to_string_lossy().into_owned()),
        before: o.before_list.clone().map(command),
        ours: o.list.clone().map(command),
        ours_where: o.list_where.clone().map(command),
        file: o.root.join("target/oracle/stream"),
    }
}

/// The programs that are timed on two uploads.
fn programs(o: &Options) -> Programs {
    let Listing { rust, ours, .. } = listing(o);
    let diff = o.diff.clone().expect("--bench-diff wants --diff");
    Programs {
        diff: [o.emulator.clone(), vec![diff]].concat(),
        list: ours.expect("--bench-diff wants --list"),
        rust_list: rust,
        folder: o.root.join("target/oracle/pairs"),
    }
}

/// The comparison of two uploads, where it is at hand.
fn uploads(o: &Options) -> Uploads {
    Uploads {
        rust_list: listing(o).rust,
        diff: o.diff.clone().map(|program| [o.emulator.clone(), vec![program]].concat()),
        folder: o.root.join("target/oracle/uploads"),
    }
}

/// The command that makes one run of the timing.
fn this_program_once(o: &Options) -> Vec<String> {
    let this = std::env::current_exe().expect("this program has a name").to_string_lossy().into_owned();
    [o.emulator.clone(), vec![this], std::env::args().skip(1).collect(), vec!["--once".to_string()]].concat()
}

fn main() {
    let o = options();
    let how = if o.emulator.is_empty() { "" } else { " (emulated)" };
    if o.once {
        return bench::once(listing(&o));
    }
    if o.bench {
        return medians::run(&this_program_once(&o), !o.emulator.is_empty());
    }
    if o.bench_diff {
        return pairs::time(&programs(&o), o.seed, !o.emulator.is_empty());
    }
    if let Some(file) = &o.record {
        let (sample, cases) = record::sample(o.seed);
        std::fs::write(file, &sample).unwrap_or_else(|e| panic!("{file}: {e}"));
        return println!("seed {}: {cases} of the Rust's answers, {} bytes, written to {file}", o.seed, sample.len());
    }
    println!("seed {}, {} bytes of random streams{how}", o.seed, o.bytes);
    let differences = o.root.join("docs/DIFFERENCES.md");
    let mut report = Report::new(std::fs::read_to_string(&differences).unwrap_or_else(|e| panic!("{}: {e}", differences.display())));
    framing::compare(&mut report, o.seed, o.bytes);
    positions::compare(&mut report, o.seed);
    let random = 20_000.max(o.bytes / 100);
    records::compare(&mut report, o.seed, random);
    bursts::compare(&mut report, o.seed, random);
    queries::compare(&mut report, o.seed);
    logs::compare(&mut report, o.seed);
    listing(&o).compare(&mut report, o.seed);
    uploads(&o).compare(&mut report, o.seed);
    std::process::exit(report.finish());
}
