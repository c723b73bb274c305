//! A second, independent codec for Compact SSR messages of sub types 1 to 7, 10
//! and 11, made from document 01 ("Exact rules for the build") and, of document
//! 02, from Ask 1 ("Accuracy and combined biases"), Ask 2 ("A mask that changes
//! under one issue") and Ask 7 ("How many bits were missing"), so that another
//! implementation can be compared with it.
//!
//! Clarity comes before speed everywhere: bits are taken one by one, masks are
//! spelled out as lists, and a message is read whole before anything is lent
//! back to the caller.

pub mod answer;
pub mod bits;
pub mod compose;
pub mod difference;
pub mod emit;
pub mod generate;
pub mod holding;
pub mod host;
pub mod host_lines;
pub mod host_write;
pub mod layout;
pub mod listing;
pub mod mask_message;
pub mod pencil;
pub mod random;
pub mod reader;
pub mod saved;
pub mod text;
pub mod walk;
pub mod writer;

/// The longest stretch: 30 data parts of 1,695 bits (document 01, "What is built").
pub const STRETCH_BITS: usize = 50_850;

/// The row buffer's least length in numbers (document 01, answer 1): 256 rows of eight.
pub const ROW_ROOM: usize = 2_048;

/// Numbers in a head and in a row (document 01, "What is handed out").
pub const COLUMNS: usize = 8;

/// What isn't there, in head or row (document 01, "What is handed out").
pub const ABSENT: i32 = -32_768;

/// The number every Compact SSR message opens with (document 01, "Message layouts").
pub const MESSAGE_NUMBER: u64 = 4_073;
