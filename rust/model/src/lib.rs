//! The model: document 01, "The two-choice tag index", in plain Rust, to be read beside the paper,
//! with what document 02, §1 to §3 and §5 to §8, change in it: nobody has tag 0, a group may hold 32 tags,
//! building is planning and writing in turn, there is an index without tags beside the other, of the
//! choice sequences that fill a group the one with the fewest second places is taken, a strict check
//! tells the images that building writes, and a second test of a seed counts connected parts. Where §2 has
//! another number than the sentence that is quoted, it stands in square brackets.
//!
//! It is written from the papers alone and shares no code with the proved crates, so that a
//! program can run both and compare. Where the papers leave the method open, the model takes
//! another one than the proved crates: connected parts decide whether a seed serves a group, all
//! sequences of each part are listed to find the one that is taken, columns find the least word of the
//! index without tags, the strict check builds an image again as a whole, and the second test walks
//! through each part. A module is one concept, in the paper's order.

#![forbid(unsafe_code)]

pub mod boundary;
pub mod building;
pub mod checking;
pub mod hash;
pub mod image;
pub mod line;
pub mod list;
pub mod lookup;
pub mod parts;
pub mod placing;
pub mod planning;
pub mod printer;
pub mod refusal;
pub mod strict_checking;
pub mod tagless;
pub mod writing;

pub use boundary::{
    answer_build, answer_check, answer_lookup, answer_parts, answer_place, answer_plan,
    answer_strict_check, answer_tagless_build, answer_tagless_check, answer_tagless_lookup,
    answer_write,
};
pub use building::{build, image_of};
pub use checking::check;
pub use hash::place_of_one_tag;
pub use list::{list_text, read_list, List};
pub use lookup::{lookup, Found};
pub use parts::{count_parts, filling_sequences, Parts};
pub use placing::place_group;
pub use planning::{plan_list, Plan};
pub use printer::print_index;
pub use refusal::Refusal;
pub use strict_checking::strict_check;
pub use writing::write_list;
