//! "Numbers and what they leave": the numbers by name.

pub const ACCEPTED: u16 = 0;

pub const NOT_OPEN: u16 = 1;
pub const NOT_NEXT: u16 = 2;
pub const NO_FREE_RECORD: u16 = 3;
pub const SECTION_DUE: u16 = 4;
pub const NO_SECTION_DUE: u16 = 5;
pub const UNREADABLE: u16 = 6;
pub const BUFFER_SHORT: u16 = 7;
pub const BAD_VALUE: u16 = 8;
pub const ROW_LENGTH: u16 = 9;

pub const STREAM_CREATION_ERROR: u16 = 0x0103;
pub const CLOSED_CRITICAL_STREAM: u16 = 0x0104;
pub const FRAME_UNEXPECTED: u16 = 0x0105;
pub const FRAME_ERROR: u16 = 0x0106;
pub const EXCESSIVE_LOAD: u16 = 0x0107;
pub const ID_ERROR: u16 = 0x0108;
pub const SETTINGS_ERROR: u16 = 0x0109;
pub const MISSING_SETTINGS: u16 = 0x010a;
pub const REQUEST_REJECTED: u16 = 0x010b;
pub const REQUEST_CANCELLED: u16 = 0x010c;
pub const REQUEST_INCOMPLETE: u16 = 0x010d;
pub const MESSAGE_ERROR: u16 = 0x010e;

/// Every number of the table that refuses a call.
pub const ALL: [u16; 21] = [
    NOT_OPEN,
    NOT_NEXT,
    NO_FREE_RECORD,
    SECTION_DUE,
    NO_SECTION_DUE,
    UNREADABLE,
    BUFFER_SHORT,
    BAD_VALUE,
    ROW_LENGTH,
    STREAM_CREATION_ERROR,
    CLOSED_CRITICAL_STREAM,
    FRAME_UNEXPECTED,
    FRAME_ERROR,
    EXCESSIVE_LOAD,
    ID_ERROR,
    SETTINGS_ERROR,
    MISSING_SETTINGS,
    REQUEST_REJECTED,
    REQUEST_CANCELLED,
    REQUEST_INCOMPLETE,
    MESSAGE_ERROR,
];

/// A connection fault is kept; every other code frees the stream's record.
pub fn is_connection_fault(number: u16) -> bool {
    (STREAM_CREATION_ERROR..=MISSING_SETTINGS).contains(&number)
}
