//! The numbers of the answers: 0 and the refusals of docs/REFUSALS.md, under the names they have there.

pub const ACCEPTED: u8 = 0;

pub const NO_SUCH_TASK: u8 = 1;
pub const TASK_PRESENT: u8 = 2;
pub const TASK_ABSENT: u8 = 3;
pub const TASK_WAITING: u8 = 4;
pub const TASK_RUNNING: u8 = 5;
pub const EXTENSION_TOO_LONG: u8 = 6;
pub const LENGTH_OUT_OF_RANGE: u8 = 7;
pub const HANDLES_SPENT: u8 = 8;
pub const NO_FREE_BLOCK: u8 = 9;
pub const NO_FREE_EXPIRATION: u8 = 10;
pub const HANDLE_NOT_GIVEN: u8 = 11;
pub const OBJECT_GONE: u8 = 12;
pub const OUTSIDE_OBJECT: u8 = 13;
pub const WRONG_STORE_LENGTH: u8 = 14;
pub const NOT_WELL_FORMED: u8 = 15;
pub const NOT_HEXADECIMAL: u8 = 16;
pub const UNKNOWN_OPERATION: u8 = 17;
pub const WRONG_FRAME_LENGTH: u8 = 18;
pub const UNKNOWN_KIND: u8 = 19;
pub const BATCH_OUT_OF_RANGE: u8 = 20;
pub const ONLY_MAKE_PINS: u8 = 21;
pub const NOT_PINNED: u8 = 22;
pub const SUM_DIFFERS: u8 = 23;
pub const RESERVE_ABOVE_LIMIT: u8 = 24;
pub const RESERVE_NOT_FREE: u8 = 25;
pub const AT_LIMIT: u8 = 26;
pub const ONLY_VIEWS: u8 = 27;
pub const PREFIX_TOO_LONG: u8 = 28;
pub const LIMITS_OUT_OF_RANGE: u8 = 29;

/// Not a refusal of the rules: a buffer is too short.
pub const SHORT_BUFFER: u8 = 255;
