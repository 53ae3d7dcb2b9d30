// The paper's verdict numbers, by their names there.

pub type Verdict = u8;

pub const GOOD: Verdict = 0;
pub const UNSUMMED: Verdict = 1;
pub const CUT: Verdict = 2;
pub const VERSION: Verdict = 3;
pub const SHAPE: Verdict = 4;
pub const HEADER_SUM: Verdict = 5;
pub const FRAGMENT: Verdict = 6;
pub const UNCOVERED: Verdict = 7;
pub const MISSING: Verdict = 8;
pub const MESSAGE_SUM: Verdict = 9;
pub const PLACE: Verdict = 10;
pub const SPENT: Verdict = 11;
pub const BLANK: Verdict = 12;
pub const MARK: Verdict = 13;
pub const EDITION: Verdict = 14;
pub const RECORD: Verdict = 15;
pub const ROOM: Verdict = 16;
