//! Eistulko: an independent second reading of documents 01 and 02, to hold the proved engine to from outside.
//!
//! Each stream keeps every byte it consumed, and each call reads the whole stream again from its first byte;
//! nothing is carried from one call to the next but those bytes and the sections taken.

pub mod block;
pub mod calls;
pub mod classes;
pub mod control_stream;
pub mod hex;
pub mod integers;
pub mod lister;
pub mod numbers;
pub mod one_way;
pub mod reading;
pub mod replay;
pub mod request_stream;
pub mod sections;
pub mod settings;
pub mod writer;

pub mod compare;
pub mod generate;
