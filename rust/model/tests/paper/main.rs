//! The model held against document 01 and document 02, §1 to §3 and §5 to §8: worked values, traps,
//! refusals, edges, agreement, tag 0, groups of up to 32 tags, planning and writing, the index without
//! tags, the fewest second places, the strict check, and counting parts.

mod agreement;
mod common;
mod counts_and_buffers;
mod fewest;
mod figures;
mod images;
mod lists;
mod parts;
mod plans;
mod printer_and_boundary;
mod refusals;
mod strict;
mod tagless_images;
mod tagless_words;
mod thirty_two;
mod traps;
mod unwired;
mod worked_values;
