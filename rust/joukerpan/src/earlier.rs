//! The frame as of an earlier place.

/// What [`Office::frame_at`](crate::Office::frame_at) answers.
#[derive(Clone, Debug, PartialEq, Eq)]
pub struct Earlier {
    edits: Vec<Option<u32>>,
    words: usize,
}

impl Earlier {
    /// Of the stored numbers of the lines named: 0 is no edit yet, any other number a code + 1.
    pub(crate) fn new(stored: &[u32], words: usize) -> Earlier {
        Earlier { edits: stored.iter().map(|number| number.checked_sub(1)).collect(), words }
    }

    /// The code of each line named, in their order; `None` for no edit yet.
    pub fn edits(&self) -> &[Option<u32>] {
        &self.edits
    }

    /// How many words of the log were read: the length of the shortest undropped run ending at the place that has an
    /// edit for each line named, or all undropped ones up to the place.
    pub fn words(&self) -> usize {
        self.words
    }
}
