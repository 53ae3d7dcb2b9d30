// The hut's capture: its records, their verdicts, and the lines that the program prints.

use crate::judge::judge;
use crate::verdict::*;

pub const MARK_BYTES: &[u8] = b"GLR";
pub const LONGEST: usize = 2048;

/// Whether the mark is missing or another.
pub fn mark_wrong(capture: &[u8]) -> bool {
    !capture.starts_with(MARK_BYTES)
}

/// Whether the version is missing or not 1.
pub fn edition_wrong(capture: &[u8]) -> bool {
    capture.get(3..5) != Some(&[0, 1])
}

/// The whole records after the first five bytes, up to the end or to damage, and whether there is damage.
pub fn whole_records(capture: &[u8]) -> (Vec<&[u8]>, bool) {
    let mut rest = capture.get(5..).unwrap_or(&[]);
    let mut records = Vec::new();
    while !rest.is_empty() {
        if rest.len() < 2 {
            return (records, true);
        }
        let length = usize::from(u16::from_be_bytes([rest[0], rest[1]]));
        rest = &rest[2..];
        if length > LONGEST || length > rest.len() {
            return (records, true);
        }
        let (record, after) = rest.split_at(length);
        records.push(record);
        rest = after;
    }
    (records, false)
}

/// The whole records, and 0 or what the reading of them stopped for: 13, 14 or 15.
pub fn records(capture: &[u8]) -> (Vec<&[u8]>, Verdict) {
    if mark_wrong(capture) {
        return (Vec::new(), MARK);
    }
    if edition_wrong(capture) {
        return (Vec::new(), EDITION);
    }
    let (records, damaged) = whole_records(capture);
    (records, if damaged { RECORD } else { GOOD })
}

/// Writes one verdict a record; answers a verdict on the capture and the record count.
pub fn judge_capture(capture: &[u8], verdicts: &mut [u8]) -> (Verdict, usize) {
    let (records, stop) = records(capture);
    if stop != GOOD {
        return (stop, 0);
    }
    if records.len() > verdicts.len() {
        return (ROOM, 0);
    }
    for (verdict, record) in verdicts.iter_mut().zip(&records) {
        *verdict = judge(record);
    }
    (GOOD, records.len())
}

/// What the program prints for this standard input.
pub fn printed(capture: &[u8]) -> String {
    let (records, stop) = records(capture);
    let verdicts: Vec<Verdict> = records.iter().map(|record| judge(record)).collect();
    let mut lines = String::new();
    for (i, verdict) in verdicts.iter().enumerate() {
        lines += &format!("record {} verdict {verdict}\n", i + 1);
    }
    let all = verdicts.len();
    if stop != GOOD {
        return lines + &format!("stopped {stop} after {all}\n");
    }
    let count = |number| verdicts.iter().filter(|verdict| **verdict == number).count();
    let (good, unsummed) = (count(GOOD), count(UNSUMMED));
    let refused = all - good - unsummed;
    lines + &format!("records {all} good {good} unsummed {unsummed} refused {refused}\n")
}
