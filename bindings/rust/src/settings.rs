//! The settings of links, and why they aren't taken.

use std::fmt;

use crate::ffi;

/// Whether feedback is sent to the compressor (RFC 3095 4.4).
#[derive(Clone, Copy, Debug, PartialEq, Eq)]
pub enum Mode {
    /// U mode: no feedback.
    Unidirectional,
    /// O mode.
    Optimistic,
}

/// A range of CIDs with a mode of its own.
#[derive(Clone, Copy, Debug, PartialEq, Eq)]
pub struct Range {
    /// Its least CID.
    pub first: u16,
    /// Its greatest CID, inclusive.
    pub last: u16,
    /// Its mode.
    pub mode: Mode,
}

/// The settings of a link. man/rohc-links.5 has each setting with its limits.
#[derive(Clone, Debug, PartialEq, Eq)]
pub struct Link {
    /// Its number.
    pub number: u16,
    /// The greatest CID: at most 15, or 16,383 for large CIDs.
    pub max_cid: u16,
    /// Large CIDs, else small ones.
    pub large: bool,
    /// The mode of CIDs that are in no range.
    pub mode: Mode,
    /// k1 failures among the last n1 outcomes lead to Static Context.
    pub k1: u8,
    /// At most 64.
    pub n1: u8,
    /// k2 failures among the last n2 outcomes lead to No Context.
    pub k2: u8,
    /// At most 64.
    pub n2: u8,
    /// Milliseconds between two packets of a sender.
    pub packet_ms: u32,
    /// The least milliseconds between two STATIC-NACKs in No Context.
    pub static_nack_ms: u32,
    /// Idle milliseconds after which a context counts as none; 0 is never.
    pub idle_ms: u32,
    /// At most eight, in ascending order, without overlap.
    pub ranges: Vec<Range>,
}

impl Link {
    /// A link of small CIDs in O mode, with the values that docs/OPERATING.md names to start with.
    #[must_use]
    pub fn new(number: u16) -> Link {
        Link {
            number,
            max_cid: 15,
            large: false,
            mode: Mode::Optimistic,
            k1: 2,
            n1: 3,
            k2: 2,
            n2: 3,
            packet_ms: 20,
            static_nack_ms: 1000,
            idle_ms: 0,
            ranges: Vec::new(),
        }
    }

    /// The same for C, or none if there are more than eight ranges.
    pub(crate) fn for_c(&self) -> Option<ffi::Link> {
        let mut ranges = [ffi::Range::default(); ffi::RANGES];
        for (place, range) in ranges.iter_mut().zip(&self.ranges) {
            *place = ffi::Range { first: range.first, last: range.last, optimistic: range.mode == Mode::Optimistic };
        }
        Some(ffi::Link {
            link: self.number,
            max_cid: self.max_cid,
            large: self.large,
            optimistic: self.mode == Mode::Optimistic,
            k1: self.k1,
            n1: self.n1,
            k2: self.k2,
            n2: self.n2,
            range_count: u8::try_from(self.ranges.len()).ok().filter(|count| usize::from(*count) <= ffi::RANGES)?,
            packet_ms: self.packet_ms,
            static_nack_ms: self.static_nack_ms,
            idle_ms: self.idle_ms,
            ranges,
        })
    }
}

/// Why no gateway is made from links.
#[derive(Clone, Copy, Debug, PartialEq, Eq)]
pub enum SetupFault {
    /// There are no links.
    NoLinks,
    /// There are more than 256.
    TooManyLinks,
    /// A link has more than eight ranges.
    TooManyRanges,
    /// A link's settings or ranges are outside their limits.
    BadSetting,
    /// A link has the number of an earlier link.
    DuplicateLink,
    /// There is no memory.
    NoMemory,
}

impl SetupFault {
    pub(crate) fn of(number: u8) -> SetupFault {
        match number {
            1 => SetupFault::NoLinks,
            2 => SetupFault::TooManyLinks,
            3 => SetupFault::TooManyRanges,
            4 => SetupFault::BadSetting,
            5 => SetupFault::DuplicateLink,
            _ => SetupFault::NoMemory,
        }
    }

    fn sentence(self) -> &'static str {
        match self {
            SetupFault::NoLinks => "there are no links",
            SetupFault::TooManyLinks => "there are more than 256 links",
            SetupFault::TooManyRanges => "a link has more than eight ranges",
            SetupFault::BadSetting => "a link's settings are outside their limits",
            SetupFault::DuplicateLink => "a link has the number of an earlier link",
            SetupFault::NoMemory => "there is no memory",
        }
    }
}

/// A fault of links, and the place of the link at fault, from 0.
#[derive(Clone, Copy, Debug, PartialEq, Eq)]
pub struct SetupError {
    /// What is wrong.
    pub fault: SetupFault,
    /// The place of the link, if the fault is of one.
    pub place: Option<usize>,
}

impl fmt::Display for SetupError {
    fn fmt(&self, f: &mut fmt::Formatter<'_>) -> fmt::Result {
        match self.place {
            Some(place) => write!(f, "{} (link {} of the list)", self.fault.sentence(), place + 1),
            None => f.write_str(self.fault.sentence()),
        }
    }
}

impl std::error::Error for SetupError {}
