//! Round trips through the writer and the reader under test: what is written and then read is the schedule again, and
//! what is read and then written is the text again. The reference only makes the texts that are read first.

use reference::schedule::Schedule;
use reference::text;
use reference::{LARGEST, LONGEST};

use crate::damage::{damaged, DAMAGES};
use crate::findings::{share, Findings};
use crate::generate::{of_case, sizes, FAMILIES};
use crate::random::Random;
use crate::reads::{any_numbers, Numbers, Read, Tables};
use crate::texts::show;
use crate::writes::Write;

/// The part's key for the random numbers.
const TRIPS: u64 = 9;

/// The place of the damage "digit changed", after which a text is accepted more often than after the others.
const DIGIT_CHANGED: usize = 1;

/// Compares so many round trips each way, on schedules of all families and sizes in turn.
pub fn compare(seed: u64, count: u64, write: Write, read: Read) -> Findings {
    let sizes = sizes();
    share(count, FAMILIES.len(), |findings, case| {
        let mut random = Random::of_case(seed, TRIPS, case);
        let (family, schedule) = of_case(&mut random, &sizes, case);
        findings.count(family, None);
        findings.sizes.insert((schedule.n, schedule.t));
        let there = written_and_read(&mut random, &schedule, write, read);
        findings.compare(case, there.is_ok(), || failed(&schedule, there));
        let back = read_and_written(&mut random, &schedule, write, read);
        findings.compare(case, back.is_ok(), || failed(&schedule, back));
    })
}

/// A round trip that failed, in words.
fn failed(schedule: &Schedule, trip: Result<(), String>) -> String {
    let words = trip.expect_err("the trip failed");
    format!("schedule: {schedule:?}\n{words}\n")
}

/// Writes an accepted schedule, and reads what is written: n, t and the tables' first n entries are the same again, and
/// all that stood behind the text and behind those entries is kept.
fn written_and_read(
    random: &mut Random,
    schedule: &Schedule,
    write: Write,
    read: Read,
) -> Result<(), String> {
    let lent = random.bytes(LONGEST);
    let (mut buffer, mut used) = (lent.clone(), random.bits() as usize);
    write(schedule, &mut buffer, &mut used)
        .map_err(|number| format!("written: refused {number}"))?;
    let text = buffer.get(..used).ok_or(format!("written: used {used}"))?;
    let words = |what: &str| format!("written:\n{}{what}", show(text));
    if buffer[used..] != lent[used..] {
        return Err(words("what stood behind the text is not kept"));
    }
    let mut tables = Tables::any(random, [LARGEST; 3]);
    let mut numbers = any_numbers(random);
    let mut expected = tables.clone();
    expected.put(schedule);
    let right: Numbers = [schedule.n, schedule.t, numbers[2]];
    let accepted = read(text, &mut tables, &mut numbers);
    if (accepted, numbers) != (Ok(()), right) || tables != expected {
        let found = format!("then read: {accepted:?}, {numbers:?}, {tables:?}");
        return Err(words(&found));
    }
    Ok(())
}

/// Reads an accepted text, and writes the schedule that is read into a buffer of the text's length: it is the same text
/// again.
fn read_and_written(
    random: &mut Random,
    schedule: &Schedule,
    write: Write,
    read: Read,
) -> Result<(), String> {
    let text = accepted_text(random, schedule, read);
    let words = |what: String| format!("text:\n{}{what}", show(&text));
    let mut tables = Tables::any(random, [LARGEST; 3]);
    let mut numbers = any_numbers(random);
    read(&text, &mut tables, &mut numbers)
        .map_err(|number| words(format!("read: refused {number}")))?;
    let [n, t, _] = numbers;
    let schedule = tables.schedule(n, t);
    let schedule = schedule.ok_or_else(|| words(format!("read: n = {n}, t = {t}")))?;
    let (mut buffer, mut used) = (random.bytes(text.len()), random.bits() as usize);
    let accepted = write(&schedule, &mut buffer, &mut used);
    if (accepted, used) != (Ok(()), text.len()) || buffer != text {
        let again = show(&buffer);
        let found = format!("then written: {accepted:?}, used {used}\n{again}");
        return Err(words(found));
    }
    Ok(())
}

/// The text of an accepted schedule; every second time with a digit changed or any other damage, if the reader under
/// test still takes it. One that takes what it should refuse so takes a text that isn't written again.
fn accepted_text(random: &mut Random, schedule: &Schedule, read: Read) -> Vec<u8> {
    let damage = match random.below(4) {
        0 => DIGIT_CHANGED,
        1 => random.below(DAMAGES.len()),
        _ => return text::write(schedule),
    };
    let text = damaged(random, schedule, damage);
    let mut tables = Tables::any(random, [LARGEST; 3]);
    match read(&text, &mut tables, &mut [0; 3]) {
        Ok(()) => text,
        Err(_) => text::write(schedule),
    }
}

#[cfg(test)]
mod tests {
    use super::*;
    use crate::{reads, writes};

    /// So other texts are read first than those that the reference writes, too. They are few, for most damages are
    /// refused.
    #[test]
    fn some_changed_texts_are_accepted() {
        let sizes = sizes();
        let count = 1_000;
        let changed = (0..count).filter(|case| {
            let mut random = Random::of_case(1, TRIPS, *case);
            let (_, schedule) = of_case(&mut random, &sizes, *case);
            let text = accepted_text(&mut random, &schedule, &reads::by_reference);
            text != text::write(&schedule)
        });
        let changed = changed.count();
        assert!(changed >= 5, "only {changed} of {count}");
        let (name, _) = DAMAGES[DIGIT_CHANGED];
        assert_eq!(name, "digit changed");
    }

    #[test]
    fn each_trip_is_compared_both_ways() {
        let findings = compare(1, 40, &writes::by_reference, &reads::by_reference);
        assert_eq!((findings.compared, findings.differ), (80, 0));
        assert_eq!(findings.sizes.len(), 40);
    }
}
