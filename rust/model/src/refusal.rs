//! Refusals: "A refusal carries a number and a place; the place is 0 where none is named."

/// Why an operation stopped: the papers' number, 1 to 19, and the place.
#[derive(Debug, Clone, Copy, PartialEq, Eq)]
pub struct Refusal {
    pub number: u32,
    pub place: u64,
}

/// The refusal `number` where the papers name no place.
pub fn refuse<T>(number: u32) -> Result<T, Refusal> {
    Err(Refusal { number, place: 0 })
}

/// The refusal `number` at a line, index, group or slot, counted from 0.
pub fn refuse_at<T>(number: u32, place: usize) -> Result<T, Refusal> {
    Err(Refusal {
        number,
        place: place as u64,
    })
}
