//! Schedule files (document 02, K2): the text of an accepted schedule, written into a lent buffer; and a text read into
//! three lent tables (document 01, "Schedule text and report", with the table length of document 02, K11).

use crate::questions::{ask, Refusal};
use crate::schedule::Schedule;
use crate::text::{read, write, Refused};
use crate::{Set, LARGEST};

/// Writes the text of a schedule to the start of a lent buffer, and gives its length. Document 02, K2: "The writer puts
/// an accepted schedule into a lent buffer in the form that the reader takes, and answers the length used. Bytes after
/// that length keep their contents." Nothing is put behind the text, so that a buffer of exactly its length will do.
///
/// "The table questions come first; then, buffer long enough for the whole text? 18": refused by 1 to 7, 18, and the
/// buffer is then as it was lent.
pub fn write_schedule(schedule: &Schedule, buffer: &mut [u8]) -> Result<usize, Refusal> {
    schedule.ask()?;
    let text = write(schedule);
    ask(text.len() <= buffer.len(), Refusal::Buffer)?;
    buffer[..text.len()].copy_from_slice(&text);
    Ok(text.len())
}

/// Reads a text into three lent tables, and gives n and t. Document 01: "The reader fills three lent tables", which
/// have [`LARGEST`] entries each, "and leaves entries above n unchanged."
///
/// Each table of that length? Otherwise the refusal is 3 with line 0, whatever the text is; then come the questions of
/// the text. After a refusal all tables are as they were lent.
pub fn read_schedule(
    text: &[u8],
    votes: &mut [u8],
    crashes: &mut [u8],
    reaches: &mut [Set],
) -> Result<(usize, usize), Refused> {
    let lengths = [votes.len(), crashes.len(), reaches.len()];
    let whole_text = |refusal| Refused { refusal, line: 0 };
    ask(lengths == [LARGEST; 3], Refusal::Tables).map_err(whole_text)?;
    let schedule = read(text)?;
    let n = schedule.n;
    votes[..n].copy_from_slice(&schedule.votes);
    crashes[..n].copy_from_slice(&schedule.crashes);
    reaches[..n].copy_from_slice(&schedule.reaches);
    Ok((n, schedule.t))
}
