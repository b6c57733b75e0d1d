//! The second program: the segmenter's rules written once more from the rules alone, by other
//! methods than the product's, so that the two can be compared call by call and byte by byte.
//!
//! Segment costs come from the kernel itself (A and B over a Gram matrix of all channels), least costs from
//! trying every cutting or from growing cuttings forward, shares and means from exact fractions.

pub mod calls;
pub mod cuttings;
pub mod exact;
pub mod file;
pub mod gram;
pub mod lines;
pub mod number;
pub mod record;

/// A refusal: its code, its place and its byte position.
#[derive(Clone, Copy, Debug, PartialEq, Eq)]
pub struct Refusal {
    pub code: u64,
    pub place: u64,
    pub position: u64,
}

impl Refusal {
    pub fn plain(code: u64) -> Refusal {
        Refusal::at(code, 0)
    }

    pub fn at(code: u64, place: usize) -> Refusal {
        Refusal { code, place: place as u64, position: 0 }
    }

    /// The same refusal with a position.
    pub fn on_byte(self, position: usize) -> Refusal {
        Refusal { position: position as u64, ..self }
    }

    /// Code, place and position in one number.
    pub fn reply(self) -> u64 {
        self.code + 256 * self.place + 4_294_967_296 * self.position
    }
}

/// Refuses with the code at place 0 where the reason holds.
pub fn refuse_if(reason: bool, code: u64) -> Result<(), Refusal> {
    if reason {
        Err(Refusal::plain(code))
    } else {
        Ok(())
    }
}
