//! The index without tags: document 02, §5. A sibling image that has a word for each group in place of
//! the slots.
//!
//! Line 0, hashing, reading a list, refusals and the sense of a faulty group are those of document 01,
//! so their modules are used here.

pub mod building;
pub mod checking;
pub mod image;
pub mod lookup;
pub mod word;

pub use building::{build, image_of};
pub use checking::check;
pub use image::tagless_length;
pub use lookup::lookup;
pub use word::{choice_of, first_seed_and_word, least_word, row_of};
