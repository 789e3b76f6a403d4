//! An index without tags, for a gauge box that has no store for them: the plant builds it, the box keeps
//! 11 + 21 × B bytes and asks it for listed tags.
//!
//!     cargo run --offline --release -p tag_index --example gauge_box

use std::error::Error;
use tag_index::{tagless, TaglessIndex};

fn main() -> Result<(), Box<dyn Error>> {
    let tags = [7, 1_200, 70_001, 2_147_483_648, 4_294_967_295];
    let (groups, limit) = (2, 99);

    let image = tagless::image_of(groups, limit, &tags)?;
    let with_tags = tag_index::image_length(groups, tags.len());
    println!("image of {} bytes, {with_tags} with the tags:", image.len());
    print!("{}", String::from_utf8_lossy(&image));

    let index = TaglessIndex::new(image)?;
    println!("checked: {} tags in {} groups", index.len(), index.groups());

    for tag in tags {
        match index.lookup(tag) {
            Some(number) => println!("tag {tag} has number {number}"),
            None => println!("tag {tag} is unknown"),
        }
    }
    // The box cannot tell a stranger from a listed tag: 8 gets the number of one of them.
    if let Some(number) = index.lookup(8) {
        println!("tag 8, which is not listed, gets number {number}");
    }
    // Nobody has tag 0.
    println!("tag 0: {:?}", index.lookup(0));
    Ok(())
}
