//! Damages to the text of an accepted schedule, by name. A damaged text may by chance be accepted still. Each damage
//! works on any bytes, so that several can follow each other; what isn't there any more stays as it is.

use reference::questions::SIZES;
use reference::schedule::Schedule;
use reference::text::{write, HEADING_PROCESSES, HEADING_SIZES};
use reference::LONGEST;

use crate::random::Random;

/// How a text is damaged; the schedule is the one it was written from.
type Damage = fn(&mut Random, &Schedule, &mut Vec<u8>);

/// The damages and their names, in which LONGEST stands for its number.
pub const DAMAGES: [(&str, Damage); 35] = [
    ("byte changed", |random, _, text| byte_changed(random, text)),
    ("digit changed", |random, _, text| {
        digit_changed(random, text)
    }),
    ("byte dropped", byte_dropped),
    ("byte inserted", byte_inserted),
    ("NUL byte", nul_byte),
    ("byte above 127", high_byte),
    ("cut short", cut_short),
    ("last LF missing", last_lf_missing),
    ("some LF missing", some_lf_missing),
    ("CR LF", cr_lf),
    ("lines swapped", lines_swapped),
    ("line dropped", line_dropped),
    ("line doubled", line_doubled),
    ("spaces", spaces),
    ("leading zero", leading_zero),
    ("other heading", other_heading),
    ("n out of range", n_out_of_range),
    ("t out of range", t_out_of_range),
    ("number of three digits", three_digits),
    ("own number wrong", own_number_wrong),
    ("vote above 1", vote_above_1),
    ("crash round above t + 1", crash_above_last_round),
    ("reach names its own process", reach_of_itself),
    ("reach without a crash", reach_without_crash),
    ("reach too short or too long", reach_of_other_length),
    ("f above t", too_many_crashes),
    ("f above t and a process wrong", too_many_and_wrong),
    ("f above t and bytes after the end", too_many_and_more),
    ("bytes after the end", bytes_after_the_end),
    ("filled up to LONGEST bytes", filled),
    ("LONGEST + 1 bytes", one_byte_too_long),
    ("longer than LONGEST + 1 bytes", too_long),
    ("empty or nearly so", empty),
    ("any bytes", any_bytes),
    ("two or three damages", several),
];

/// The text of a schedule with the damage of a kind.
pub fn damaged(random: &mut Random, schedule: &Schedule, kind: usize) -> Vec<u8> {
    let mut text = write(schedule);
    let (_, damage) = DAMAGES[kind];
    damage(random, schedule, &mut text);
    text
}

/// Two or three damages of any kind but this one, which is the last.
fn several(random: &mut Random, schedule: &Schedule, text: &mut Vec<u8>) {
    for _ in 0..random.within(2..=3) {
        let (_, damage) = random.pick(&DAMAGES[..DAMAGES.len() - 1]);
        damage(random, schedule, text);
    }
}

/// One of the places where the byte is as asked for, if there is any.
fn place_of(random: &mut Random, text: &[u8], asked: impl Fn(u8) -> bool) -> Option<usize> {
    let places: Vec<usize> = (0..text.len()).filter(|k| asked(text[*k])).collect();
    random.place(places.len()).map(|place| places[place])
}

/// Puts a byte over another one or between two.
fn put(random: &mut Random, text: &mut Vec<u8>, byte: u8) {
    match random.place(text.len()) {
        Some(k) if random.one_in(2) => text[k] = byte,
        Some(k) => text.insert(k, byte),
        None => text.push(byte),
    }
}

fn byte_changed(random: &mut Random, text: &mut [u8]) {
    if let Some(k) = random.place(text.len()) {
        text[k] = random.byte();
    }
}

fn digit_changed(random: &mut Random, text: &mut [u8]) {
    if let Some(k) = place_of(random, text, |byte| byte.is_ascii_digit()) {
        text[k] = b'0' + random.below(10) as u8;
    }
}

fn byte_dropped(random: &mut Random, _: &Schedule, text: &mut Vec<u8>) {
    if let Some(k) = random.place(text.len()) {
        text.remove(k);
    }
}

fn byte_inserted(random: &mut Random, _: &Schedule, text: &mut Vec<u8>) {
    let byte = match random.below(3) {
        0 => random.byte(),
        _ => random.pick(b"0123456789 \n-+"),
    };
    let k = random.below(text.len() + 1);
    text.insert(k, byte);
}

fn nul_byte(random: &mut Random, _: &Schedule, text: &mut Vec<u8>) {
    put(random, text, 0);
}

fn high_byte(random: &mut Random, _: &Schedule, text: &mut Vec<u8>) {
    let byte = random.within(128..=255) as u8;
    put(random, text, byte);
}

fn cut_short(random: &mut Random, _: &Schedule, text: &mut Vec<u8>) {
    if let Some(k) = random.place(text.len()) {
        text.truncate(k);
    }
}

fn last_lf_missing(_: &mut Random, _: &Schedule, text: &mut Vec<u8>) {
    if text.last() == Some(&b'\n') {
        text.pop();
    }
}

fn some_lf_missing(random: &mut Random, _: &Schedule, text: &mut Vec<u8>) {
    if let Some(k) = place_of(random, text, |byte| byte == b'\n') {
        match random.below(3) {
            0 => text[k] = b' ',
            _ => drop(text.remove(k)),
        }
    }
}

/// CR LF in place of one LF or of each, or CR in place of one.
fn cr_lf(random: &mut Random, _: &Schedule, text: &mut Vec<u8>) {
    if random.one_in(3) {
        let lines: Vec<&[u8]> = text.split(|byte| *byte == b'\n').collect();
        *text = lines.join(&b"\r\n"[..]);
    } else if let Some(k) = place_of(random, text, |byte| byte == b'\n') {
        text[k] = b'\r';
        if random.one_in(2) {
            text.insert(k + 1, b'\n');
        }
    }
}

/// Changes the lines of a text, each with its LF.
fn change_lines(text: &mut Vec<u8>, change: impl FnOnce(&mut Vec<Vec<u8>>)) {
    let lines = text.split_inclusive(|byte| *byte == b'\n');
    let mut lines: Vec<Vec<u8>> = lines.map(<[u8]>::to_vec).collect();
    if !lines.is_empty() {
        change(&mut lines);
    }
    *text = lines.concat();
}

fn lines_swapped(random: &mut Random, _: &Schedule, text: &mut Vec<u8>) {
    change_lines(text, |lines| {
        let (one, other) = (random.below(lines.len()), random.below(lines.len()));
        lines.swap(one, other);
    });
}

fn line_dropped(random: &mut Random, _: &Schedule, text: &mut Vec<u8>) {
    change_lines(text, |lines| {
        lines.remove(random.below(lines.len()));
    });
}

fn line_doubled(random: &mut Random, _: &Schedule, text: &mut Vec<u8>) {
    change_lines(text, |lines| {
        let k = random.below(lines.len());
        lines.insert(k, lines[k].clone());
    });
}

/// A space doubled, at the start or the end of a line, or a tab in its place.
fn spaces(random: &mut Random, _: &Schedule, text: &mut Vec<u8>) {
    match random.below(4) {
        0 => {
            if let Some(k) = place_of(random, text, |byte| byte == b' ') {
                text[k] = b'\t';
            }
        }
        1 => {
            if let Some(k) = place_of(random, text, |byte| byte == b'\n') {
                text.insert(k + 1, b' ');
            }
        }
        _ => {
            if let Some(k) = place_of(random, text, |byte| byte <= b' ') {
                text.insert(k, b' ');
            }
        }
    }
}

/// Changes a field of line k of a text, fields counted from 0.
fn change_field(text: &mut Vec<u8>, k: usize, field: usize, change: impl FnOnce(&mut Vec<u8>)) {
    change_lines(text, |lines| {
        if let Some(line) = lines.get_mut(k - 1) {
            change_field_of(line, field, change);
        }
    });
}

/// Changes a field of a line; an LF at its end stays.
fn change_field_of(line: &mut Vec<u8>, field: usize, change: impl FnOnce(&mut Vec<u8>)) {
    let end = line.strip_suffix(b"\n").unwrap_or(line).len();
    let lf = line.split_off(end);
    let parts = line.split(|byte| *byte == b' ');
    let mut parts: Vec<Vec<u8>> = parts.map(<[u8]>::to_vec).collect();
    if let Some(part) = parts.get_mut(field) {
        change(part);
    }
    *line = parts.join(&b' ');
    line.extend(lf);
}

/// Writes a number into a field of line k.
fn write_field(text: &mut Vec<u8>, k: usize, field: usize, value: usize) {
    change_field(text, k, field, |part| {
        *part = value.to_string().into_bytes();
    });
}

/// The fields of a process's line.
const OWN: usize = 0;
const VOTE: usize = 1;
const CRASH: usize = 2;
const REACH: usize = 3;

/// Line and field of any number of a text but the reaches.
fn any_number(random: &mut Random, schedule: &Schedule) -> (usize, usize) {
    match random.below(3) {
        0 => (2, random.below(2)),
        _ => (
            3 + any_process(random, schedule),
            random.within(OWN..=CRASH),
        ),
    }
}

fn any_process(random: &mut Random, schedule: &Schedule) -> usize {
    random.within(1..=schedule.n)
}

fn leading_zero(random: &mut Random, schedule: &Schedule, text: &mut Vec<u8>) {
    let (k, field) = any_number(random, schedule);
    change_field(text, k, field, |part| part.insert(0, b'0'));
}

fn three_digits(random: &mut Random, schedule: &Schedule, text: &mut Vec<u8>) {
    let (k, field) = any_number(random, schedule);
    let value = random.within(100..=999);
    write_field(text, k, field, value);
}

fn other_heading(random: &mut Random, _: &Schedule, text: &mut Vec<u8>) {
    let (k, right) = random.pick(&[(1, HEADING_SIZES), (3, HEADING_PROCESSES)]);
    let heading = match random.below(7) {
        0 => right.to_uppercase(),
        1 => right[..random.below(right.len())].to_string(),
        2 => format!("{right} "),
        3 => "id decision round".to_string(),
        4 => "n t f first last messages".to_string(),
        5 => right.split(' ').rev().collect::<Vec<_>>().join(" "),
        _ => format!("{right}x"),
    };
    change_lines(text, |lines| {
        if let Some(line) = lines.get_mut(k - 1) {
            *line = (heading + "\n").into_bytes();
        }
    });
}

/// A number of two digits below `low` or above `high`, often the next one.
fn outside(random: &mut Random, low: usize, high: usize) -> usize {
    match random.below(4) {
        0 => low - 1,
        1 => high + 1,
        2 => random.within(0..=low - 1),
        _ => random.within(high + 1..=99),
    }
}

fn n_out_of_range(random: &mut Random, _: &Schedule, text: &mut Vec<u8>) {
    let n = outside(random, *SIZES.start(), *SIZES.end());
    write_field(text, 2, 0, n);
    if random.one_in(2) {
        let t = random.below(100);
        write_field(text, 2, 1, t);
    }
}

fn t_out_of_range(random: &mut Random, schedule: &Schedule, text: &mut Vec<u8>) {
    let t = match random.below(3) {
        0 => schedule.n,
        _ => outside(random, 3, schedule.n - 1),
    };
    write_field(text, 2, 1, t);
}

fn own_number_wrong(random: &mut Random, schedule: &Schedule, text: &mut Vec<u8>) {
    let i = any_process(random, schedule);
    let wrong = match random.below(4) {
        0 => i - 1,
        1 => i + 1,
        2 => i % 10,
        _ => random.below(100),
    };
    write_field(text, 3 + i, OWN, wrong);
}

fn vote_above_1(random: &mut Random, schedule: &Schedule, text: &mut Vec<u8>) {
    let i = any_process(random, schedule);
    let vote = random.within(2..=9);
    write_field(text, 3 + i, VOTE, vote);
}

fn crash_above_last_round(random: &mut Random, schedule: &Schedule, text: &mut Vec<u8>) {
    let i = any_process(random, schedule);
    let crash = match random.below(2) {
        0 => schedule.t + 2,
        _ => random.within(schedule.t + 2..=99),
    };
    write_field(text, 3 + i, CRASH, crash);
}

/// Sets the letter of process j in the reach of process i.
fn name(text: &mut Vec<u8>, i: usize, j: usize) {
    change_field(text, 3 + i, REACH, |part| {
        if let Some(letter) = part.get_mut(j - 1) {
            *letter = b'1';
        }
    });
}

fn reach_of_itself(random: &mut Random, schedule: &Schedule, text: &mut Vec<u8>) {
    let i = any_process(random, schedule);
    let crash = random.within(1..=schedule.t + 1);
    write_field(text, 3 + i, CRASH, crash);
    name(text, i, i);
}

fn reach_without_crash(random: &mut Random, schedule: &Schedule, text: &mut Vec<u8>) {
    let (i, j) = (any_process(random, schedule), any_process(random, schedule));
    write_field(text, 3 + i, CRASH, 0);
    name(text, i, j);
}

fn reach_of_other_length(random: &mut Random, schedule: &Schedule, text: &mut Vec<u8>) {
    let i = any_process(random, schedule);
    let length = match random.below(2) {
        0 => random.within(0..=schedule.n - 1),
        _ => random.within(schedule.n + 1..=schedule.n + 9),
    };
    change_field(text, 3 + i, REACH, |part| part.resize(length, b'0'));
}

fn too_many_crashes(random: &mut Random, schedule: &Schedule, text: &mut Vec<u8>) {
    let f = match random.below(2) {
        0 => schedule.t + 1,
        _ => random.within(schedule.t + 1..=schedule.n),
    };
    let mut crashed = schedule.f();
    for i in random.order(schedule.n) {
        if crashed < f && schedule.crash(i) == 0 {
            crashed += 1;
            let crash = random.within(1..=schedule.t + 1);
            write_field(text, 3 + i, CRASH, crash);
        }
    }
}

/// The wrong process is often one after the crash that makes t + 1 of them; its own question goes before number 7.
fn too_many_and_wrong(random: &mut Random, schedule: &Schedule, text: &mut Vec<u8>) {
    too_many_crashes(random, schedule, text);
    let wrong: [Damage; 3] = [vote_above_1, crash_above_last_round, reach_of_itself];
    random.pick(&wrong)(random, schedule, text);
}

fn too_many_and_more(random: &mut Random, schedule: &Schedule, text: &mut Vec<u8>) {
    too_many_crashes(random, schedule, text);
    bytes_after_the_end(random, schedule, text);
}

fn bytes_after_the_end(random: &mut Random, schedule: &Schedule, text: &mut Vec<u8>) {
    match random.below(4) {
        0 => text.push(random.byte()),
        1 => text.extend_from_slice(&write(schedule)),
        2 => {
            let line = format!("{} 1 0 {}\n", schedule.n + 1, "0".repeat(schedule.n));
            text.extend_from_slice(line.as_bytes());
        }
        _ => text.push(random.pick(b"\n\r\0 0")),
    }
}

/// Fills a shorter text up to a length with one byte, or with its own bytes again.
fn fill(random: &mut Random, text: &mut Vec<u8>, length: usize) {
    let bytes = match random.below(3) {
        0 => vec![random.byte()],
        1 => vec![b'\n'],
        _ => [&text[..], b"\n"].concat(),
    };
    let missing = length.saturating_sub(text.len());
    text.extend(bytes.iter().cycle().take(missing));
}

fn filled(random: &mut Random, _: &Schedule, text: &mut Vec<u8>) {
    let length = match random.below(2) {
        0 => LONGEST,
        _ => random.within(LONGEST - 20..=LONGEST),
    };
    fill(random, text, length);
}

fn one_byte_too_long(random: &mut Random, _: &Schedule, text: &mut Vec<u8>) {
    fill(random, text, LONGEST + 1);
}

fn too_long(random: &mut Random, _: &Schedule, text: &mut Vec<u8>) {
    let length = match random.below(2) {
        0 => random.within(LONGEST + 2..=LONGEST + 20),
        _ => random.within(LONGEST + 2..=5 * LONGEST),
    };
    fill(random, text, length);
}

fn empty(random: &mut Random, _: &Schedule, text: &mut Vec<u8>) {
    let length = random.below(4);
    let byte = random.pick(b"\n \0n");
    *text = vec![byte; length];
}

fn any_bytes(random: &mut Random, _: &Schedule, text: &mut Vec<u8>) {
    let length = match random.below(4) {
        0 => random.below(LONGEST + 100),
        _ => random.below(40),
    };
    *text = (0..length).map(|_| random.byte()).collect();
}
