//! An independent second reader, writer, walk, listing and painter of symbols, written from the
//! papers 01, 02, 001 and 003 alone, with a structure of their own. What is proved is compared with
//! them.

pub mod listing;
pub mod reader;
pub mod sprite;
pub mod walk;
pub mod writer;
