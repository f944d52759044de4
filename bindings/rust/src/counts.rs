//! Counts of answers.

use crate::answer::Refusal;
use crate::ffi;

const DELIVERED: usize = 0;
const STORED: usize = 31;

/// A kind of feedback for the compressor.
#[derive(Clone, Copy, Debug, PartialEq, Eq)]
pub enum Word {
    /// ACK.
    Ack = 0,
    /// NACK.
    Nack = 1,
    /// STATIC-NACK.
    StaticNack = 2,
    /// FEEDBACK-1 of profile 0x0000.
    PlainAck = 3,
}

/// How many answers of each kind there were: of a link, of a CID or of all, as the caller counts.
///
/// ```
/// use polorowan::{Counts, Gateway, Link, Word};
///
/// let mut gateway = Gateway::new(&[Link::new(1)])?;
/// let mut counts = Counts::new();
/// gateway.arrive_counted(1, 0, &[0xfc, 0x00, 0xb7, 0x45, 0xaa], &mut counts);
/// gateway.arrive_counted(1, 0, &[], &mut counts);
/// assert_eq!((counts.delivered(), counts.all_refused(), counts.feedback(Word::PlainAck)), (1, 1, 1));
/// # Ok::<(), polorowan::SetupError>(())
/// ```
#[derive(Clone, Copy, Debug, Default, PartialEq, Eq)]
pub struct Counts {
    pub(crate) raw: ffi::Counts,
}

impl Counts {
    /// No answers.
    #[must_use]
    pub fn new() -> Counts {
        Counts::default()
    }

    /// Packets that were rebuilt.
    #[must_use]
    pub fn delivered(&self) -> u64 {
        self.raw.outcomes[DELIVERED]
    }

    /// Contexts that were made or renewed without a packet.
    #[must_use]
    pub fn stored(&self) -> u64 {
        self.raw.outcomes[STORED]
    }

    /// Packets that were refused for this reason.
    #[must_use]
    pub fn refused(&self, refusal: Refusal) -> u64 {
        self.raw.outcomes[usize::from(refusal.number())]
    }

    /// Packets that were refused, for whatever reason.
    #[must_use]
    pub fn all_refused(&self) -> u64 {
        self.raw.outcomes[DELIVERED + 1..STORED].iter().fold(0, |sum, count| sum.saturating_add(*count))
    }

    /// Packets of padding and feedback alone.
    #[must_use]
    pub fn feedback_alone(&self) -> u64 {
        self.raw.feedback_alone
    }

    /// Feedback of this kind for the compressor.
    #[must_use]
    pub fn feedback(&self, word: Word) -> u64 {
        self.raw.words[word as usize]
    }

    /// Feedback elements for this side's compressor.
    #[must_use]
    pub fn relayed(&self) -> u64 {
        self.raw.relayed
    }
}
