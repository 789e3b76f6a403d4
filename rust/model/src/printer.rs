//! The index printer: a list text in, an image or one refusal line out.

use crate::building::image_of;
use crate::image::LARGEST_LIST;
use crate::line::line_of_two;
use crate::list::{read_list, List};
use crate::refusal::{refuse, Refusal};

/// "Input above 65,527 bytes is refused with 5 at place 0, unexamined."
pub const LARGEST_TEXT: usize = 65_527;

/// "It writes the image with B and L as given, or one line with the refusal number and the place
/// in five columns each."
pub fn print_index(text: &[u8]) -> Vec<u8> {
    let printed =
        read_bounded_list(text).and_then(|list| image_of(&list.tags, list.groups, list.limit));
    match printed {
        Ok(image) => image,
        Err(Refusal { number, place }) => line_of_two(u64::from(number), place),
    }
}

/// Reading as the printer and the C boundary do it: the text's length first, and tag cells for
/// every list, so that 9 never comes from here.
pub fn read_bounded_list(text: &[u8]) -> Result<List, Refusal> {
    if text.len() > LARGEST_TEXT {
        return refuse(5);
    }
    read_list(text, LARGEST_LIST)
}
