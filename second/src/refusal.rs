//! The paper's table "Refusal numbers": every number named once.

/// Bytes or words end too early.
pub const ENDS_EARLY: u8 = 1;
/// A mark is not the one due.
pub const WRONG_MARK: u8 = 2;
/// n, k, m or c outside its range.
pub const COUNT_OUT_OF_RANGE: u8 = 3;
/// A next state not below the count, or an SM byte neither below m nor 255.
pub const NO_SUCH_STATE: u8 = 4;
/// Bytes or words left over.
pub const LEFT_OVER: u8 = 5;
/// A length outside its range or a letter not below k; also a question with no letter.
pub const LENGTH_OR_LETTER: u8 = 6;
/// The state limit L or the number of rounds R outside its range.
pub const LIMIT_OUT_OF_RANGE: u8 = 7;
/// The table area or the word area is too small.
pub const TABLE_OR_WORD_AREA: u8 = 8;
/// The sheet area is too small.
pub const SHEET_AREA: u8 = 9;
/// S, closed after at most R rounds, has more than L words.
pub const TOO_MANY_STATES: u8 = 10;
/// Checker: the sheet's n or k is not the machine's.
pub const OTHER_COUNTS: u8 = 11;
/// Checker: a reaching word does not lead the model to its state.
pub const REACHING_WORD: u8 = 12;
/// Checker: two model states are not told apart by any column.
pub const NOT_TOLD_APART: u8 = 13;
/// Checker: the state map does not carry the machine over to the model.
pub const STATE_MAP: u8 = 14;
