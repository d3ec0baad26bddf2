//! Reference implementation of the settings volume (BulgeFS 0.1.0.0 with an
//! undo journal).
//!
//! It is written from the rules alone, to be read beside them, and makes no
//! attempt to be fast: calls take bytes and give new bytes. A refusal is
//! `Err(number)`, and then there are no new bytes.

pub mod check;
pub mod journal;
pub mod layout;
pub mod listing;
pub mod marks;
pub mod overview;
pub mod path;
pub mod pieces;
pub mod replay;
pub mod salvage;
pub mod salvage_tree;
pub mod store;
pub mod table;
pub mod views;
pub mod volume;
pub mod worked;
pub mod write_list;

pub use check::check;
pub use journal::{apply, start, undo, Applied, State, Undone};
pub use listing::list;
pub use marks::{journal_info, undo_to, Backed, JournalInfo};
pub use overview::{info, next_entry, Told};
pub use pieces::{append, append_whole, read_next, Append, Appended};
pub use replay::{Answer, Call, Replay};
pub use salvage::{salvage, Salvaged};
pub use salvage_tree::{salvage_tree, TreeSalvaged};
pub use store::{get, get_in, Put, Revision, Which};
pub use table::{load_table, store_table};
pub use volume::{
    format, look_in_place, lookup, read, read_attributes, Change, ClearAttributes, ClearFlags,
    Create, CreateDirectory, Delete, DeleteDirectory, Found, Move, Replace, SetAttributes, Shorten,
    Write,
};
pub use write_list::{write_list, Listed};

/// A refusal number, 1 to 27.
pub type Refusal = u32;
