//! What is answered to a packet.

use std::ffi::CStr;
use std::fmt;
use std::os::raw::c_char;

use crate::ffi;

/// A refusal, by its number (man/rohc-script.5).
#[derive(Clone, Copy, PartialEq, Eq, Hash)]
pub struct Refusal(u8);

impl Refusal {
    pub(crate) fn of(number: u8) -> Option<Refusal> {
        (1..=30).contains(&number).then_some(Refusal(number))
    }

    /// Its number: 1 to 30.
    #[must_use]
    pub fn number(self) -> u8 {
        self.0
    }

    /// Its name, such as `NoContext`.
    #[must_use]
    pub fn name(self) -> &'static str {
        // SAFETY: the texts of refusals stay, and end with an octet 0.
        unsafe { text(ffi::polorowan_name_of(self.0)) }
    }

    /// What it means, in a sentence.
    #[must_use]
    pub fn meaning(self) -> &'static str {
        // SAFETY: the texts of refusals stay, and end with an octet 0.
        unsafe { text(ffi::polorowan_text_of(self.0)) }
    }
}

/// A text of the library; nothing, if there is none.
///
/// # Safety
///
/// The pointer is null, or to a text that stays and ends with an octet 0.
pub(crate) unsafe fn text(from: *const c_char) -> &'static str {
    if from.is_null() {
        return "";
    }
    // SAFETY: by this function's own condition.
    unsafe { CStr::from_ptr(from) }.to_str().unwrap_or("")
}

impl fmt::Display for Refusal {
    fn fmt(&self, f: &mut fmt::Formatter<'_>) -> fmt::Result {
        f.write_str(self.name())
    }
}

impl fmt::Debug for Refusal {
    fn fmt(&self, f: &mut fmt::Formatter<'_>) -> fmt::Result {
        f.write_str(self.name())
    }
}

/// What became of a packet.
#[derive(Clone, Copy, Debug, PartialEq, Eq)]
pub enum Outcome {
    /// The context of this CID rebuilt a packet.
    Delivered {
        /// The CID.
        cid: u16,
    },
    /// The context of this CID was made or renewed without a packet.
    Stored {
        /// The CID.
        cid: u16,
    },
    /// The packet has only padding and feedback.
    OnlyFeedback,
    /// The packet was refused.
    Refused {
        /// The CID, if the packet has one.
        cid: Option<u16>,
        /// Why.
        refusal: Refusal,
    },
}

/// The answer to a packet. Its octets stand in the gateway until the next arrival.
#[derive(Clone, Copy, Debug)]
pub struct Answer<'a> {
    /// What became of the packet.
    pub outcome: Outcome,
    /// The rebuilt packet.
    pub packet: Option<&'a [u8]>,
    /// The feedback for the compressor at the other end.
    pub feedback: Option<&'a [u8]>,
    pub(crate) relayed: &'a [u8],
}

impl<'a> Answer<'a> {
    /// The feedback that the packet carried for this side's compressor, element by element.
    pub fn relayed(&self) -> impl Iterator<Item = &'a [u8]> {
        let mut left = self.relayed;
        std::iter::from_fn(move || {
            let (count, rest) = left.split_first()?;
            let element = rest.get(..usize::from(*count))?;
            left = &rest[element.len()..];
            Some(element)
        })
    }
}

/// The state of a context (RFC 3095 4.3.2).
#[derive(Clone, Copy, Debug, PartialEq, Eq)]
pub enum State {
    /// Only an IR is taken.
    NoContext,
    /// The static part is known.
    StaticContext,
    /// Every packet may be taken.
    FullContext,
}

/// What is shown of a context.
#[derive(Clone, Copy, Debug, PartialEq, Eq)]
pub struct Context {
    /// Its CID.
    pub cid: u16,
    /// Its profile: 0x0000 or 0x0001.
    pub profile: u16,
    /// Its state.
    pub state: State,
    /// When its last packet was accepted, in milliseconds.
    pub accepted: u64,
}

impl Context {
    pub(crate) fn of(context: &ffi::ContextInfo) -> Context {
        Context {
            cid: context.cid,
            profile: context.profile,
            state: match context.state {
                0 => State::NoContext,
                1 => State::StaticContext,
                _ => State::FullContext,
            },
            accepted: context.accepted,
        }
    }
}
