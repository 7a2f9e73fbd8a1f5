//! The numbers of the refusals, as the rules list them.

pub const TOO_MANY_EVENTS: u32 = 1;
pub const GRID_LENGTH: u32 = 2;
pub const SET_TOO_LARGE: u32 = 3;
pub const DIAGONAL: u32 = 4;
pub const MIRROR: u32 = 5;
pub const PLACING_LENGTH: u32 = 6;
pub const START_NOT_BEFORE_END: u32 = 7;
pub const SHEET_TOO_LONG: u32 = 8;
pub const FORM: u32 = 9;
pub const LISTED_TWICE: u32 = 10;
pub const NOT_LISTED: u32 = 11;
pub const ABOUT_ITSELF: u32 = 12;
