//! Rebuilds an index as a service would: builds the image of a list, checks it once, looks up tags.
//!
//!     cargo run --offline --release -p tag_index --example rebuild

use std::error::Error;

fn main() -> Result<(), Box<dyn Error>> {
    let tags = [7, 1_200, 70_001, 2_147_483_648, 4_294_967_295];
    let (groups, limit) = (2, 99);

    let text = tag_index::list_text(groups, limit, &tags)?;
    let mut buffer = vec![0; tag_index::image_length(groups, tags.len())];
    let length = tag_index::build(&text, &mut buffer)?;
    let image = &buffer[..length];
    println!("image of {length} bytes:");
    print!("{}", String::from_utf8_lossy(image));

    let index = tag_index::Index::new(image)?;
    println!("checked: {} tags in {} groups", index.len(), index.groups());

    for tag in tags.into_iter().chain([0, 8]) {
        match index.lookup(tag) {
            Some(number) => println!("tag {tag} has number {number}"),
            None => println!("tag {tag} is unknown"),
        }
    }

    // A list that is not ascending is refused, and the refusal says where.
    let text = tag_index::list_text(groups, limit, &[3, 9, 9])?;
    let refused = tag_index::build(&text, &mut buffer).unwrap_err();
    println!("3, 9, 9: {refused}");
    Ok(())
}
