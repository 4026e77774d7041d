//! Positions in a stream, the states that carry them, and the saved forms. At any position the stream is compared with the Rust, as everywhere
//! (framing.rs); what a state of any bytes, a form and the last positions mean, the Rust has no word for: that is by the rules.
use crate::framing::{carried, Streams, Tally};
use crate::gen::{self, hex, Rng};
use crate::ours::{self, Answer, Places, State, NOW};
use crate::report::{Family, Report};
use uf_crsf::CrsfParser;

/// The most bytes that a save holds.
const HELD: usize = 63;
/// More bytes than a form has.
const ROOM: usize = 80;

pub fn compare(report: &mut Report, seed: u64) {
    let mut tally = Tally::default();
    let mut r = Rng::new(seed ^ 0x905);
    report.family("positions: streams from any, and up to the last", |family| {
        let mut s = Streams::new(family, &mut tally, r.clone());
        from_any(&mut s);
        r = s.rng;
    });
    report.family("positions: pieces that just fit, by RULES 18 those that don't", |family| {
        let mut s = Streams::new(family, &mut tally, r.clone());
        just_fit(&mut s);
        r = s.rng;
    });
    tally.print();
    report.family("states of any bytes: the Rust's reading, by RULES 6, 9, 14, 18", |f| any_states(f, &mut r));
    report.family("states of other lengths: by RULES 14 alone", |f| other_lengths(f, &mut r));
    report.family("forms saved, into every room: by RULES 9 alone", |f| saved(f, &mut r));
    report.family("forms restored, right and malformed: by RULES 9 alone", |f| restored(f, &mut r));
}

fn from_any(s: &mut Streams<'_>) {
    for _ in 0..60_000 {
        let len = s.rng.one_of(&[30, 100, 200, 400]);
        let bytes = gen::stream(&mut s.rng, len);
        let position = gen::position(&mut s.rng);
        let mut r = s.rng.clone();
        s.compare(&bytes, |b| {
            b.restored(Some(position))?;
            match r.below(5) {
                0 => b.random_pieces(&mut r),
                1 => b.loosely(&mut r, false),
                2 => b.loosely(&mut r, true),
                _ => b.to_the_last(&mut r),
            }
        });
        s.rng = r;
    }
}

/// Some bytes of a frame are held, and then comes a piece that ends at, before or behind the last position.
fn just_fit(s: &mut Streams<'_>) {
    for (body, wrong) in [1, 2, 23, 60, 61].into_iter().flat_map(|body| [0, 1].map(|wrong| (body, wrong))) {
        let mut bytes = vec![0; body];
        s.rng.fill(&mut bytes);
        bytes = gen::frame(0xC8, &bytes);
        let frame = bytes.len();
        bytes[frame - 1] ^= wrong;
        bytes.extend(gen::stream(&mut s.rng, 70_000));
        for (held, len) in (0..frame).flat_map(|held| (0..=66).chain([100, 255, 256, 257, 65_536]).map(move |len| (held, len))) {
            for behind in -2..=2 {
                let position = (i128::from(u64::MAX) - (held + len) as i128 + behind).min(u64::MAX.into()) as u64;
                s.compare(&bytes[..(held + len).max(frame)], |b| {
                    b.restored(Some(position))?;
                    b.call(held)?;
                    b.call(len)?;
                    b.drain()
                });
            }
        }
    }
}

/// The held bytes and the position of a state, where it is one.
fn parts_of(state: &[u8]) -> Option<(&[u8], u64)> {
    let state: &State = state.try_into().ok()?;
    let held = state[2..66].get(usize::from(state[0])..usize::from(state[1]))?;
    Some((held, u64::from_be_bytes(*state.last_chunk()?)))
}

/// Whether so many bytes, from there on, end at the last position or before it.
fn fit(position: u64, bytes: usize) -> bool {
    position.checked_add(bytes as u64).is_some()
}

/// A state of these parts, over another's places.
fn state_of(held: &[u8], position: u64, places: &State) -> State {
    let mut state = *places;
    (state[0], state[1]) = (0, held.len() as u8);
    state[2..][..held.len()].copy_from_slice(held);
    state[66..].copy_from_slice(&position.to_be_bytes());
    state
}

/// What a call answers, by the rules; `at` is left out. With it the bytes of a frame, and what is held afterwards.
struct Call {
    answer: Answer,
    frame: Vec<u8>,
    held: Vec<u8>,
    dropped: usize,
}

/// The Rust reads the held bytes and the piece as one string; how much of the piece that takes is by RULES 6.4.
fn call(held: &[u8], input: &[u8]) -> Call {
    let all = [held, input].concat();
    let mut parser = CrsfParser::new();
    let (number, first, second, frame) = match parser.next_raw_packet(&mut &all[..]) {
        None => (ours::MORE, 0, 0, vec![]),
        Some(Ok(frame)) => (ours::FRAME, 0, 0, frame.as_slice().to_vec()),
        Some(Err(error)) => {
            let (number, first, second) = carried(&error);
            (number, first, second, vec![])
        }
    };
    let (dropped, candidate) = match number {
        ours::MORE => (0, all.len()),
        ours::FRAME => (frame.len(), frame.len()),
        ours::INVALID_SYNC => (1, 1),
        ours::INVALID_PACKET_LENGTH => (1, 2),
        _ => (1, usize::from(all[1]) + 2),
    };
    let taken = if held.is_empty() && number != ours::MORE { dropped } else { candidate.saturating_sub(held.len()) };
    let in_state = u8::from(number == ours::FRAME && !held.is_empty());
    let answer = Answer { number, taken: taken as u8, in_state, len: frame.len() as u8, first, second, ..Answer::default() };
    Call { answer, frame, held: all[dropped..held.len() + taken].to_vec(), dropped }
}

/// Every entry of one state, each by itself.
fn entries(f: &mut Family, r: &mut Rng, state: &State, input: &[u8]) {
    let refused = Answer::refusal(ours::BAD_STATE);
    let told = || format!("{}, piece {}", hex(state), hex(input));
    let parts = parts_of(state);

    // Where no place is lent, now and then by no pointer either.
    let lent = r.below(4);
    let no_pointer = lent == 0 && r.below(2) == 0;
    let mut places = Places::NEW;
    let pointer = if no_pointer { std::ptr::null_mut() } else { places.0.as_mut_ptr() };
    let mut after = *state;
    let got = unsafe { (NOW.crsf_next_raw_packet)(after.as_mut_ptr(), after.len(), input.as_ptr(), input.len(), pointer, lent) };
    match parts {
        Some((held, position)) if fit(position, held.len() + input.len()) => {
            let want = call(held, input);
            let place = if got.in_state == 1 { &after[2..66] } else { input };
            let at = usize::from(got.at).wrapping_sub(2 * usize::from(got.in_state));
            let frame = place.get(at..at.wrapping_add(want.frame.len())).filter(|_| got.in_state == 1 || at == 0);
            let began = if want.answer.number == ours::MORE { Places::NEW } else { Places::told(lent, position) };
            let expected = (want.answer, began, Some(&want.frame[..]), Some((&want.held[..], position + want.dropped as u64)));
            f.same(expected, (Answer { at: 0, ..got }, places, frame, parts_of(&after)), || format!("a call, {lent} places, on {}", told()));
        }
        _ => {
            let answer = if parts.is_none() { refused } else { Answer::refusal(ours::POSITION_RANGE) };
            f.same((answer, Places::NEW, *state), (got, places, after), || format!("a call, {lent} places, on {}", told()));
        }
    }

    f.same(parts.map_or(refused, |(held, _)| Answer::wrote(held.len())), ours::held(state), || format!("held in {}", told()));

    let mut places = Places::NEW;
    let pointer = if no_pointer { std::ptr::null_mut() } else { places.0.as_mut_ptr() };
    let got = unsafe { (NOW.crsf_position)(state.as_ptr(), state.len(), pointer, lent) };
    let expected = match parts {
        None => (refused, Places::NEW),
        Some(_) if lent == 0 => (Answer::refusal(ours::BUFFER_OVERFLOW), Places::NEW),
        Some((_, position)) => (Answer::wrote(1), Places::told(lent, position)),
    };
    f.same(expected, (got, places), || format!("the position, {lent} places, of {}", told()));

    save(f, state, r.below(ROOM + 1));

    let mut reset = *state;
    f.same((Answer::default(), state_of(&[], 0, state)), (ours::reset(&mut reset), reset), || format!("a reset of {}", told()));

    let form = gen::saved_form(gen::position(r), &state[2..][..r.below(HELD + 1)]);
    restore(f, state, &form);
}

/// A save into so much room.
fn save(f: &mut Family, state: &State, room: usize) {
    let mut expected = [0x77; ROOM];
    let answer = match parts_of(state) {
        Some((held, position)) if held.len() <= HELD && fit(position, held.len()) => {
            let form = gen::saved_form(position, held);
            if form.len() <= room {
                expected[..form.len()].copy_from_slice(&form);
                Answer::wrote(form.len())
            } else {
                Answer::refusal(ours::BUFFER_OVERFLOW)
            }
        }
        _ => Answer::refusal(ours::BAD_STATE),
    };
    let mut out = [0x77; ROOM];
    let got = ours::save(state, &mut out[..room]);
    f.same((answer, expected), (got, out), || format!("a save of {} into {room} bytes", hex(state)));
}

/// The position and the held bytes of a form, where it is well formed.
fn form_parts(form: &[u8]) -> Option<(u64, &[u8])> {
    let (position, older) = match form.split_first()? {
        (0x40, rest) => {
            let groups = &rest[..=rest.iter().position(|byte| *byte < 0x80)?];
            let is_shortest = groups.len() == 1 || groups.last() != Some(&0);
            let number = groups.iter().take(11).rev().fold(0_u128, |number, byte| number << 7 | u128::from(byte & 0x7F));
            (u64::try_from(number).ok().filter(|_| is_shortest && groups.len() <= 10)?, &rest[groups.len()..])
        }
        _ => (0, form),
    };
    let (&count, held) = older.split_first()?;
    (usize::from(count) == held.len() && held.len() <= HELD && fit(position, held.len())).then_some((position, held))
}

/// A restore into this state, whatever it is.
fn restore(f: &mut Family, state: &State, form: &[u8]) {
    let (answer, expected) = match form_parts(form) {
        Some((position, held)) => (Answer::wrote(held.len()), state_of(held, position, state)),
        None => (Answer::refusal(ours::BAD_STATE), *state),
    };
    let mut after = *state;
    let got = ours::restore(&mut after, form);
    f.same((answer, expected), (got, after), || format!("a restore of {} into {}", hex(form), hex(state)));
}

/// Any bytes: half of them those of a stream, for frames and near misses to be among them.
fn any_bytes(r: &mut Rng, bytes: &mut [u8]) {
    r.fill(bytes);
    if r.below(2) == 0 {
        let stream = gen::stream(r, bytes.len());
        bytes.copy_from_slice(&stream[..bytes.len()]);
    }
}

fn any_states(f: &mut Family, r: &mut Rng) {
    for (start, end) in (0..=255_u8).flat_map(|start| (0..=255_u8).map(move |end| (start, end))) {
        let valid = start <= end && end <= 64;
        for _ in 0..if valid { 60 } else { 1 } {
            let mut state: State = [0; 74];
            any_bytes(r, &mut state);
            (state[0], state[1]) = (start, end);
            let mut input = vec![0; r.one_of(&[0, 0, 1, 2, 3, 10, 30, 64, 65, 100, 300])];
            any_bytes(r, &mut input);
            let held = u64::from(end.wrapping_sub(start));
            let needed = r.one_of(&[held, held + input.len() as u64]);
            let position = match r.below(4) {
                0 => u64::from_be_bytes(*state.last_chunk().expect("a state has so many bytes")),
                1 => gen::position(r),
                // About the last at which they fit.
                _ => (u64::MAX - needed).saturating_add(r.below(5) as u64).wrapping_sub(2),
            };
            state[66..].copy_from_slice(&position.to_be_bytes());
            entries(f, r, &state, &input);
        }
    }
    // Pieces as long as a length can be. Nothing of them is there to be read, or is read: they are refused.
    let longest = isize::MAX as usize;
    for (held, long) in (0..=64).flat_map(|held| [1 << 32, 1 << 62, longest - 1, longest].map(|long| (held, long))) {
        let needed = (held + long) as u64;
        for position in [u64::MAX - needed + 1, u64::MAX - needed + 2, u64::MAX - needed / 2, u64::MAX - 64, u64::MAX] {
            let state = state_of(&[0xC8; 64][..held], position, &[0xC8; 74]);
            let (mut after, mut places, input) = (state, Places::NEW, [0x55; 64]);
            let got = unsafe { (NOW.crsf_next_raw_packet)(after.as_mut_ptr(), after.len(), input.as_ptr(), long, places.0.as_mut_ptr(), 1) };
            let expected = (Answer::refusal(ours::POSITION_RANGE), Places::NEW, state);
            f.same(expected, (got, places, after), || format!("a call with {long} bytes on {}", hex(&state)));
        }
    }
}

fn other_lengths(f: &mut Family, r: &mut Rng) {
    let refused = Answer::refusal(ours::BAD_STATE);
    for len in (0..=300).filter(|&len| len != size_of::<State>()) {
        for turn in 0..3 {
            let mut state = vec![0; len];
            if turn > 0 {
                r.fill(&mut state);
                state.iter_mut().take(2).for_each(|byte| *byte = 3);
            }
            let was = state.clone();
            let told = || format!("{} bytes: {}", len, hex(&was));
            let (mut places, mut out) = (Places::NEW, [0x77; ROOM]);
            let got = ours::next_raw_packet(&mut state, &[0xC8, 2, 0, 0], &mut places.0);
            f.same((refused, &was, Places::NEW), (got, &state, places), || format!("a call on {}", told()));
            f.same((refused, &was), (ours::reset(&mut state), &state), || format!("a reset of {}", told()));
            for form in [vec![0], gen::saved_form(7, &[0xC8])] {
                f.same((refused, &was), (ours::restore(&mut state, &form), &state), || format!("a restore into {}", told()));
            }
            f.same(refused, ours::held(&was), || format!("held in {}", told()));
            for lent in 0..=1 {
                f.same((refused, Places::NEW), (ours::position(&was, &mut places.0[..lent]), places), || format!("the position of {}", told()));
            }
            f.same((refused, [0x77; ROOM]), (ours::save(&was, &mut out), out), || format!("a save of {}", told()));
        }
    }
}

/// Positions on both sides of each number of groups and of bytes, and some at random.
fn positions(r: &mut Rng) -> Vec<u64> {
    let powers = (0..64).flat_map(|bits| [(1_u64 << bits) - 1, 1 << bits, (1 << bits) + 1]);
    let last = (0..=66).map(|n| u64::MAX - n);
    let random: Vec<u64> = (0..60).map(|_| gen::position(r)).collect();
    powers.chain(last).chain(random).collect()
}

fn saved(f: &mut Family, r: &mut Rng) {
    for (position, count) in positions(r).into_iter().flat_map(|position| (0..=64_usize).map(move |count| (position, count))) {
        let mut state: State = [0; 74];
        r.fill(&mut state);
        let start = r.below(65 - count);
        (state[0], state[1]) = (start as u8, (start + count) as u8);
        state[66..].copy_from_slice(&position.to_be_bytes());
        let len = 1 + gen::groups(position).len() + 1 + count;
        for room in [0, 1, count, len - 2, len - 1, len, len + 1, ROOM] {
            save(f, &state, room);
        }
    }
    // Every room.
    let ends = [0, 127, 128, 1 << 40, u64::MAX - 64, u64::MAX - 63];
    for (position, count) in ends.into_iter().flat_map(|position| [0, 1, 63].map(|count| (position, count))) {
        let state = state_of(&[0xEE; 64][..count], position, &[0x11; 74]);
        (0..=ROOM).for_each(|room| save(f, &state, room));
    }
}

fn restored(f: &mut Family, r: &mut Rng) {
    let mut old: State = [0xEE; 74];
    // Every form of 0 to 2 bytes, and every one of 3 that has a position.
    restore(f, &old, &[]);
    for a in 0..=255 {
        restore(f, &old, &[a]);
        for b in 0..=255 {
            restore(f, &old, &[a, b]);
            restore(f, &old, &[0x40, a, b]);
        }
    }
    // Without a position: every count, and every number of bytes.
    for (count, len) in (0..=255).flat_map(|count| (0..70).map(move |len| (count, len))) {
        let mut form = vec![0xC8; len];
        form.iter_mut().take(1).for_each(|byte| *byte = count);
        restore(f, &old, &form);
    }
    for position in positions(r) {
        let groups = gen::groups(position);
        for count in [0, 1, 2, 31, 62, 63, 64, r.below(HELD + 1)] {
            r.fill(&mut old);
            let mut held = vec![0; count];
            any_bytes(r, &mut held);
            let form = gen::saved_form(position, &held);
            (0..=form.len()).for_each(|cut| restore(f, &old, &form[..cut]));
            restore(f, &old, &[&form[..], &[0]].concat());
            restore(f, &old, &gen::older_form(&held));
            // The count one too low, too high, and in two groups.
            for other in [vec![count.wrapping_sub(1) as u8], vec![count as u8 + 1], vec![count as u8 | 0x80], vec![count as u8 | 0x80, 0]] {
                restore(f, &old, &[&[0x40], &groups[..], &other, &held].concat());
            }
            // The position not in its shortest form: further groups of 0, up to twelve in all.
            for more in groups.len() + 1..=12 {
                let mut longer = groups.clone();
                longer[groups.len() - 1] |= 0x80;
                longer.resize(more - 1, 0x80);
                longer.push(0);
                restore(f, &old, &[&[0x40], &longer[..], &gen::older_form(&held)].concat());
            }
            for first in [0x00, 0x3F, 0x41, 0xC0] {
                restore(f, &old, &[&[first], &form[1..]].concat());
            }
        }
    }
    // Nine groups of any bits, and every tenth, with and without an eleventh: the greatest tenth is 1.
    for (fill, tenth) in [0x80, 0x81, 0xC0, 0xFE, 0xFF].into_iter().flat_map(|fill| (0..=255).map(move |tenth| (fill, tenth))) {
        for behind in [&[][..], &[0], &[1], &[2], &[0x80, 0], &[0x81, 0], &[0x80, 0x80, 0], &[0xFF]] {
            for held in [&[][..], &[0xC8], &[0xC8; 63]] {
                restore(f, &old, &[&[0x40], &[fill; 9][..], &[tenth], behind, &gen::older_form(held)].concat());
            }
        }
    }
    // Of many groups, none of them the last.
    for groups in 0..=90 {
        restore(f, &old, &[&[0x40], &vec![0x80; groups][..]].concat());
        restore(f, &old, &[&[0x40], &vec![0xFF; groups][..], &[0, 0]].concat());
    }
    // Right ones and damaged ones.
    for _ in 0..300_000 {
        r.fill(&mut old);
        let mut held = vec![0; r.below(HELD + 1)];
        any_bytes(r, &mut held);
        let form = if r.below(4) == 0 { gen::older_form(&held) } else { gen::saved_form(gen::position(r), &held) };
        let form = if r.below(2) == 0 { form } else { gen::damaged(r, &form) };
        restore(f, &old, &form);
    }
}
