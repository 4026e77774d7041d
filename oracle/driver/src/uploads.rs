//! Two uploads compared (RULES 19): the text of the program diff, beside the one that the Rust's answers give.
use crate::gen::{self, Rng};
use crate::report::{Family, Report};
use std::fs::{self, File};
use std::path::{Path, PathBuf};
use std::process::Command;

/// Each program is a command with its words.
pub struct Uploads {
    pub rust_list: Vec<String>,
    pub diff: Option<Vec<String>>,
    /// Where the uploads stand.
    pub folder: PathBuf,
}

/// What the Rust reads: each answer's line, and of a frame all its bytes; and the tail.
struct Read<'s> {
    answers: Vec<(String, &'s [u8])>,
    tail: &'s [u8],
}

fn read<'s>(command: &[String], file: &Path, stream: &'s [u8]) -> Read<'s> {
    let input = File::open(file).expect("the upload was written");
    let output = Command::new(&command[0]).args(&command[1..]).stdin(input).output().expect("the listing program starts");
    let lines = String::from_utf8(output.stdout).expect("a listing is text");
    let mut answers = vec![];
    let mut at = 0;
    for line in lines.lines().filter(|line| !line.starts_with("held")) {
        let payload = line.strip_prefix("frame").and_then(|items| items.rsplit(' ').next());
        let size = payload.map(|length| 4 + length.parse::<usize>().expect("a frame's line ends with its payload's length"));
        answers.push((line.to_string(), &stream[at..at + size.unwrap_or(0)]));
        at += size.unwrap_or(1);
    }
    Read { answers, tail: &stream[at..] }
}

fn text(left: &Read, right: &Read) -> String {
    let (mut text, mut agree, mut differ) = (String::new(), 0, 0);
    for place in 0..left.answers.len().max(right.answers.len()) {
        let pair = [left, right].map(|side| side.answers.get(place));
        if pair[0] == pair[1] {
            agree += 1;
        } else {
            differ += 1;
            let [l, r] = pair.map(|answer| answer.map_or("-", |(line, _)| line));
            text += &format!("{} {l} | {r}\n", place + 1);
        }
    }
    if left.tail == right.tail {
        agree += 1;
    } else {
        differ += 1;
        text += &format!("tail held {} | held {}\n", left.tail.len(), right.tail.len());
    }
    text + &format!("agree {agree} differ {differ}\n")
}

/// An upload with something else in it: bytes lost, changed or added, or its end cut off.
fn changed(r: &mut Rng, stream: &[u8]) -> Vec<u8> {
    let mut other = stream.to_vec();
    for _ in 0..r.below(4) {
        let at = r.below(other.len() + 1);
        match r.below(4) {
            0 => other.truncate(at),
            1 => other.insert(at, r.byte()),
            2 if at < other.len() => other[at] ^= 1 << r.below(8),
            _ if at < other.len() => drop(other.remove(at)),
            _ => {}
        }
    }
    other
}

/// Frames, and the same with another payload byte here and there, under a right check byte.
fn payloads(r: &mut Rng) -> [Vec<u8>; 2] {
    let mut both = [vec![], vec![]];
    for _ in 0..r.below(60) {
        let frame = gen::random_frame(r);
        both[0].extend(&frame);
        let mut body = frame[2..frame.len() - 1].to_vec();
        if r.below(4) == 0 {
            let at = r.below(body.len());
            body[at] ^= r.byte();
        }
        both[1].extend(gen::frame(frame[0], &body));
    }
    both
}

impl Uploads {
    fn pair(&self, family: &mut Family, command: &[String], uploads: [&[u8]; 2]) {
        let files = ["left", "right"].map(|name| self.folder.join(name));
        for (file, upload) in files.iter().zip(uploads) {
            fs::write(file, upload).expect("the upload can be written");
        }
        let [left, right] = [0, 1].map(|side| read(&self.rust_list, &files[side], uploads[side]));
        let rust = text(&left, &right);
        let output = Command::new(&command[0]).args(&command[1..]).args(&files).output().expect("the program diff starts");
        let ours = String::from_utf8_lossy(&output.stdout);
        let sizes = format!("uploads of {} and {} bytes", uploads[0].len(), uploads[1].len());
        let (mut one, mut two) = (rust.lines(), ours.lines());
        for n in 1.. {
            match (one.next(), two.next()) {
                (None, None) => break,
                (rust, ours) => family.same(rust, ours, || format!("line {n}, {sizes}")),
            }
        }
    }

    pub fn compare(&self, report: &mut Report, seed: u64) {
        let name = "two uploads: the program diff, every line";
        let Some(command) = &self.diff else {
            return report.left_out(name, "there is no program `diff` (rt check diff)");
        };
        fs::create_dir_all(&self.folder).expect("a folder for the uploads");
        report.family(name, |family| {
            let mut r = Rng::new(seed ^ 0x2D1FF);
            let mut pairs = vec![[vec![], vec![]], [vec![0xC8, 2, 0, 0], vec![0xC8, 2, 0, 1]]];
            for _ in 0..400 {
                let len = r.below(3000);
                let stream = gen::stream(&mut r, len);
                let other = changed(&mut r, &stream);
                pairs.extend([[stream, other], payloads(&mut r)]);
            }
            for len in [200_000, 400_000] {
                let stream = gen::stream(&mut r, len);
                let other = changed(&mut r, &stream);
                pairs.push([stream, other]);
            }
            pairs.push([gen::typical(&mut r, 100_000), gen::stream(&mut r, 100_000)]);
            for [left, right] in &pairs {
                self.pair(family, command, [left, right]);
                self.pair(family, command, [right, left]);
            }
        });
        let _ = fs::remove_dir_all(&self.folder);
    }
}
