//! Kit logs. The Rust has none: its parser says which bytes are one whole frame, and which frames stand one after another; the rest is by RULES 16.
use crate::gen::{self, hex, Rng};
use crate::ours::{self, Answer, Entries, LogState};
use crate::report::{Family, Report};
use uf_crsf::CrsfParser;

/// An entry: the seconds since the entry before, and a frame.
pub type Entry = (u32, Vec<u8>);

/// A log of these entries, by the rules.
pub fn by_rules(entries: &[Entry]) -> Vec<u8> {
    let mut log = vec![1];
    for (seconds, frame) in entries {
        log.extend(gen::log_entry(*seconds, frame));
    }
    log
}

/// A log of these entries, by the port's writer.
pub fn written(entries: &[Entry]) -> Result<Vec<u8>, Answer> {
    let mut out = [0; 70];
    let mut log = vec![];
    let starts = ours::log_start(&mut out);
    log.extend_from_slice(&out[..usize::from(starts.len)]);
    for (seconds, frame) in entries {
        let a = ours::log_entry(*seconds, frame, &mut out);
        if a.number != ours::OK {
            return Err(a);
        }
        log.extend_from_slice(&out[..usize::from(a.len)]);
    }
    Ok(log)
}

/// What the port's reader makes of a log in pieces that end at these places, the last of them at its end: the entries, and what the end answers; or a
/// refusal.
pub fn read(entries: &Entries, log: &[u8], ends: impl IntoIterator<Item = usize>) -> Result<Vec<Entry>, Answer> {
    let mut state: LogState = [0; 75];
    let mut all = vec![];
    let mut at = 0;
    for end in ends {
        loop {
            let piece = &log[at..end];
            let mut seconds = 0;
            let a = entries.log_next(&mut state, piece, &mut seconds);
            at += usize::from(a.taken);
            match a.number {
                ours::MORE => break,
                ours::FRAME => {
                    let place = if a.in_state == 1 { &state[..] } else { piece };
                    all.push((seconds, place[usize::from(a.at)..][..usize::from(a.len)].to_vec()));
                }
                _ => return Err(a),
            }
        }
    }
    let a = entries.log_end(&mut state);
    if at == log.len() && a == Answer::default() {
        Ok(all)
    } else {
        Err(a)
    }
}

/// The ends of pieces of this size.
pub fn pieces(len: usize, size: usize) -> impl Iterator<Item = usize> {
    (0..len).step_by(size).map(move |at| len.min(at + size))
}

/// The frames that the Rust reads out of a stream.
fn frames_of(bytes: &[u8]) -> Vec<Vec<u8>> {
    let mut parser = CrsfParser::new();
    let mut left = bytes;
    let mut all = vec![];
    while let Some(answer) = parser.next_raw_packet(&mut left) {
        if let Ok(frame) = answer {
            all.push(frame.as_slice().to_vec());
        }
    }
    all
}

/// One entry written into so much room, against the rules, with the Rust's word on whether the bytes are one whole frame.
fn writes(f: &mut Family, seconds: u32, frame: &[u8], room: usize) {
    let is_frame = frames_of(frame).first().is_some_and(|first| first == frame);
    let entry = gen::log_entry(seconds, frame);
    let mut want = [0xAA; 80];
    let expected = if !is_frame {
        Answer::refusal(ours::INVALID_FRAME)
    } else if room < entry.len() {
        Answer::refusal(ours::BUFFER_OVERFLOW)
    } else {
        want[..entry.len()].copy_from_slice(&entry);
        Answer::wrote(entry.len())
    };
    let mut out = [0xAA; 80];
    let got = ours::log_entry(seconds, frame, &mut out[..room]);
    f.same((expected, want), (got, out), || format!("an entry of {seconds} seconds and {} into {room}", hex(frame)));
}

const SECONDS: [u32; 10] = [0, 1, 127, 128, 16383, 16384, 2097151, 268435455, 268435456, u32::MAX];

pub fn compare(report: &mut Report, seed: u64) {
    let mut r = Rng::new(seed ^ 0x106);
    report.family("logs: entries written, whole frames as the Rust reads them", |f| {
        for turn in 0..60_000 {
            let mut frame = if turn % 2 == 0 { gen::random_frame(&mut r) } else { gen::nested_frame(&mut r) };
            if turn % 3 == 0 {
                frame = gen::damaged(&mut r, &frame);
            }
            let room = if r.below(2) == 0 { 70 } else { r.below(71) };
            writes(f, r.one_of(&SECONDS), &frame, room);
        }
    });
    report.family("logs: what was written is read, in any pieces", |f| {
        for _ in 0..4_000 {
            let entries: Vec<Entry> = (0..r.below(12)).map(|_| (r.next() as u32 >> r.below(32), gen::random_frame(&mut r))).collect();
            let frames: Vec<Vec<u8>> = entries.iter().map(|(_, frame)| frame.clone()).collect();
            let log = by_rules(&entries);
            f.same(Ok(log.clone()), written(&entries), || format!("written: {}", hex(&log)));
            f.same(frames_of(&frames.concat()), frames.clone(), || format!("the frames of {}", hex(&log)));
            for size in [1, 2, 3, 7, 16, 64, 71, usize::MAX / 2] {
                f.same(Ok(entries.clone()), read(&ours::NOW, &log, pieces(log.len(), size)), || format!("in pieces of {size}: {}", hex(&log)));
            }
            let cut = r.below(log.len() + 1);
            f.same(Ok(entries.clone()), read(&ours::NOW, &log, [cut, log.len()]), || format!("cut at {cut}: {}", hex(&log)));
        }
    });
}
