//! A gateway.

use std::fmt;
use std::ptr::{null_mut, NonNull};

use crate::answer::{Answer, Context, Outcome, Refusal};
use crate::counts::Counts;
use crate::ffi;
use crate::settings::{Link, SetupError, SetupFault};

/// There is no such link.
#[derive(Clone, Copy, Debug, PartialEq, Eq)]
pub struct NoLink;

impl fmt::Display for NoLink {
    fn fmt(&self, f: &mut fmt::Formatter<'_>) -> fmt::Result {
        f.write_str("there is no such link")
    }
}

impl std::error::Error for NoLink {}

/// Why a gateway doesn't go on from octets.
#[derive(Clone, Copy, Debug, PartialEq, Eq)]
pub enum SavedError {
    /// A fault of the links.
    Setup(SetupError),
    /// A fault of the octets: its number in `enum polorowan_not_restored`, and its place.
    Octets {
        /// The number.
        fault: u8,
        /// The place of the octet, from 0.
        place: usize,
    },
}

impl fmt::Display for SavedError {
    fn fmt(&self, f: &mut fmt::Formatter<'_>) -> fmt::Result {
        match self {
            SavedError::Setup(error) => error.fmt(f),
            SavedError::Octets { fault, place } => write!(f, "{} (octet {place})", octets_fault(*fault)),
        }
    }
}

impl std::error::Error for SavedError {}

/// What a fault of octets means.
fn octets_fault(fault: u8) -> &'static str {
    match fault {
        7 => "these aren't saved calls",
        8 => "they are of another version",
        9 => "they end too soon",
        10 => "a value of a link is bad",
        11 => "a value of a context is bad",
        12 => "a link or a CID comes twice, or a CID is above the greatest of its link",
        13 => "the digest isn't that of the octets",
        _ => "octets follow the digest",
    }
}

/// Why one link isn't restored.
#[derive(Clone, Copy, Debug, PartialEq, Eq)]
pub enum RestoreError {
    /// There is no such link.
    NoLink,
    /// The link holds a context.
    HasContexts,
    /// The octets aren't those of this link alone.
    OtherLink,
    /// The link was saved with the other CID kind.
    OtherKind,
    /// There is no memory.
    NoMemory,
    /// A fault of the octets: its number in `enum polorowan_not_restored`, and its place.
    Octets {
        /// The number.
        fault: u8,
        /// The place of the octet, from 0.
        place: usize,
    },
}

impl RestoreError {
    fn of(fault: u8, place: usize) -> RestoreError {
        match fault {
            2 => RestoreError::NoLink,
            3 => RestoreError::HasContexts,
            4 => RestoreError::OtherLink,
            5 => RestoreError::OtherKind,
            ffi::NO_MEMORY => RestoreError::NoMemory,
            _ => RestoreError::Octets { fault, place },
        }
    }
}

impl fmt::Display for RestoreError {
    fn fmt(&self, f: &mut fmt::Formatter<'_>) -> fmt::Result {
        f.write_str(match self {
            RestoreError::NoLink => "there is no such link",
            RestoreError::HasContexts => "the link holds a context",
            RestoreError::OtherLink => "the octets aren't those of this link alone",
            RestoreError::OtherKind => "the link was saved with the other CID kind",
            RestoreError::NoMemory => "there is no memory",
            RestoreError::Octets { fault, place } => return write!(f, "{} (octet {place})", octets_fault(*fault)),
        })
    }
}

impl std::error::Error for RestoreError {}

/// What was restored, and what was left out.
#[derive(Clone, Copy, Debug, Default, PartialEq, Eq)]
pub struct Restored {
    /// The moment of saving, in milliseconds.
    pub moment: u64,
    /// Links that were taken.
    pub links: u64,
    /// Links that aren't in the settings.
    pub unknown_links: u64,
    /// Links of another CID kind in the settings.
    pub other_links: u64,
    /// Contexts that were taken.
    pub contexts: u64,
    /// Contexts that were left out with their link.
    pub left_contexts: u64,
    /// Contexts above the greatest CID of the settings.
    pub high_contexts: u64,
}

impl Restored {
    fn of(told: &ffi::Restored) -> Restored {
        Restored {
            moment: told.moment,
            links: told.links,
            unknown_links: told.unknown_links,
            other_links: told.other_links,
            contexts: told.contexts,
            left_contexts: told.left_contexts,
            high_contexts: told.high_contexts,
        }
    }
}

/// Why a link isn't added or changed.
#[derive(Clone, Copy, Debug, PartialEq, Eq)]
pub enum LinkError {
    /// There are 256 links.
    TooManyLinks,
    /// The link has more than eight ranges.
    TooManyRanges,
    /// Its settings or ranges are outside their limits.
    BadSetting,
    /// The link is there.
    DuplicateLink,
    /// There is no memory.
    NoMemory,
    /// There is no such link.
    NoLink,
}

impl LinkError {
    fn of(number: u8) -> LinkError {
        match number {
            2 => LinkError::TooManyLinks,
            3 => LinkError::TooManyRanges,
            4 => LinkError::BadSetting,
            5 => LinkError::DuplicateLink,
            7 => LinkError::NoLink,
            _ => LinkError::NoMemory,
        }
    }
}

impl fmt::Display for LinkError {
    fn fmt(&self, f: &mut fmt::Formatter<'_>) -> fmt::Result {
        f.write_str(match self {
            LinkError::TooManyLinks => "there are 256 links",
            LinkError::TooManyRanges => "the link has more than eight ranges",
            LinkError::BadSetting => "the link's settings are outside their limits",
            LinkError::DuplicateLink => "the link is there",
            LinkError::NoMemory => "there is no memory",
            LinkError::NoLink => "there is no such link",
        })
    }
}

impl std::error::Error for LinkError {}

/// All contexts of all links.
pub struct Gateway {
    raw: NonNull<ffi::Gateway>,
    packet: Vec<u8>,
    feedback: [u8; ffi::FEEDBACK_ROOM],
    relayed: Vec<u8>,
}

// SAFETY: a gateway belongs to no thread, and nothing else points to what it has.
unsafe impl Send for Gateway {}
// SAFETY: the calls that take `&self` write nothing.
unsafe impl Sync for Gateway {}

fn links_for_c(links: &[Link]) -> Result<Vec<ffi::Link>, SetupError> {
    let many = |place| SetupError { fault: SetupFault::TooManyRanges, place: Some(place) };
    links.iter().enumerate().map(|(place, link)| link.for_c().ok_or_else(|| many(place))).collect()
}

fn setup_error(number: u8, place: usize) -> SetupError {
    SetupError { fault: SetupFault::of(number), place: place.checked_sub(1) }
}

impl Gateway {
    /// The gateway that the library made, or a fault.
    fn made(fault: u8, raw: *mut ffi::Gateway) -> Result<Gateway, u8> {
        let raw = NonNull::new(raw).filter(|_| fault == 0).ok_or(fault)?;
        Ok(Gateway { raw, packet: Vec::new(), feedback: [0; ffi::FEEDBACK_ROOM], relayed: Vec::new() })
    }

    /// A gateway with these links, in this order and without contexts.
    ///
    /// # Errors
    ///
    /// The first fault of the links, with its place.
    pub fn new(links: &[Link]) -> Result<Gateway, SetupError> {
        let links = links_for_c(links)?;
        let (mut raw, mut place) = (null_mut(), 0);
        // SAFETY: the links are as many as is said.
        let fault = unsafe { ffi::polorowan_open(links.as_ptr(), links.len(), &mut place, &mut raw) };
        Gateway::made(fault, raw).map_err(|fault| setup_error(fault, place))
    }

    /// A gateway with these links that goes on from what [`Gateway::save`] gave.
    ///
    /// # Errors
    ///
    /// The first fault, of the links and then of the octets.
    pub fn restored(links: &[Link], octets: &[u8]) -> Result<(Gateway, Restored), SavedError> {
        let links = links_for_c(links).map_err(SavedError::Setup)?;
        let (mut raw, mut place, mut told) = (null_mut(), 0, ffi::Restored::default());
        // SAFETY: the links and the octets are as many as is said.
        let fault = unsafe {
            let (at, count) = (octets.as_ptr(), octets.len());
            ffi::polorowan_open_saved(links.as_ptr(), links.len(), at, count, &mut told, &mut place, &mut raw)
        };
        match Gateway::made(fault, raw) {
            Ok(made) => Ok((made, Restored::of(&told))),
            Err(1..=ffi::NO_MEMORY) => Err(SavedError::Setup(setup_error(fault, place))),
            Err(fault) => Err(SavedError::Octets { fault, place }),
        }
    }

    /// Takes one packet of a link. `moment` is its arrival time in milliseconds.
    ///
    /// A refused packet is an answer too. The octets of the answer stand in the gateway until the next arrival.
    ///
    /// # Panics
    ///
    /// Never: the library refuses a call without a concentrator, or with too little room, and neither is possible here.
    pub fn arrive(&mut self, link: u16, moment: u64, octets: &[u8]) -> Answer<'_> {
        let told = self.take(link, moment, octets);
        self.answer(&told)
    }

    /// Takes one packet of a link, as [`Gateway::arrive`] does, and counts its answer.
    pub fn arrive_counted(&mut self, link: u16, moment: u64, octets: &[u8], counts: &mut Counts) -> Answer<'_> {
        let told = self.take(link, moment, octets);
        // SAFETY: the buffer is as long as is said, and overlaps neither the counts nor the answer.
        unsafe { ffi::polorowan_count(&mut counts.raw, &told, self.feedback.as_ptr(), self.feedback.len()) };
        self.answer(&told)
    }

    /// Takes a packet. Its answer's octets stand in the buffers.
    fn take(&mut self, link: u16, moment: u64, octets: &[u8]) -> ffi::Arrival {
        let room = octets.len() + ffi::HEAD_ROOM;
        if self.packet.len() < room {
            self.packet.resize(room.max(2048), 0);
            self.relayed.resize(room.max(2048), 0);
        }
        let mut told = ffi::Arrival::default();
        // SAFETY: each buffer is as long as is said, and none overlaps another.
        let status = unsafe {
            ffi::polorowan_arrive(
                self.raw.as_ptr(),
                link,
                moment,
                octets.as_ptr(),
                octets.len(),
                self.packet.as_mut_ptr(),
                self.packet.len(),
                self.feedback.as_mut_ptr(),
                self.feedback.len(),
                self.relayed.as_mut_ptr(),
                self.relayed.len(),
                &mut told,
            )
        };
        assert_eq!(status, 0, "there is a concentrator, and the buffers have room");
        told
    }

    /// The answer that stands in the buffers.
    fn answer(&self, told: &ffi::Arrival) -> Answer<'_> {
        Answer {
            outcome: outcome(told),
            packet: told.has_packet.then(|| &self.packet[..told.packet_length]),
            feedback: told.has_feedback.then(|| &self.feedback[..told.feedback_length]),
            relayed: &self.relayed[..told.relayed_length],
        }
    }

    /// Adds a link behind the others, without a context.
    ///
    /// # Errors
    ///
    /// The first fault of the link. Then nothing changes.
    pub fn add_link(&mut self, link: &Link) -> Result<(), LinkError> {
        let link = link.for_c().ok_or(LinkError::TooManyRanges)?;
        // SAFETY: the gateway is a good one, and the link stands there during the call.
        match unsafe { ffi::polorowan_add_link(self.raw.as_ptr(), &link) } {
            0 => Ok(()),
            fault => Err(LinkError::of(fault)),
        }
    }

    /// Changes the setting of the link of this number. Its contexts stay, unless the CID kind changes or their CID is above
    /// the new greatest. Returns how many went.
    ///
    /// # Errors
    ///
    /// The first fault of the link. Then nothing changes.
    pub fn change_link(&mut self, link: &Link) -> Result<usize, LinkError> {
        let (link, mut count) = (link.for_c().ok_or(LinkError::TooManyRanges)?, 0);
        // SAFETY: the gateway is a good one, and the link stands there during the call.
        match unsafe { ffi::polorowan_change_link(self.raw.as_ptr(), &link, &mut count) } {
            0 => Ok(count),
            fault => Err(LinkError::of(fault)),
        }
    }

    /// Puts the contexts of one link, which holds none, back from what [`Gateway::save_link`] gave. Nothing else changes.
    ///
    /// # Errors
    ///
    /// The first fault. Then nothing changes.
    pub fn restore_link(&mut self, link: u16, octets: &[u8]) -> Result<Restored, RestoreError> {
        let (mut place, mut told) = (0, ffi::Restored::default());
        // SAFETY: the gateway is a good one, and the octets are as many as is said.
        let fault = unsafe {
            let (at, count) = (octets.as_ptr(), octets.len());
            ffi::polorowan_restore_link(self.raw.as_ptr(), link, at, count, &mut told, &mut place)
        };
        match fault {
            0 => Ok(Restored::of(&told)),
            _ => Err(RestoreError::of(fault, place)),
        }
    }

    /// Removes a link with its contexts. Returns how many went.
    ///
    /// # Errors
    ///
    /// There is no such link.
    pub fn remove_link(&mut self, link: u16) -> Result<usize, NoLink> {
        let mut count = 0;
        // SAFETY: the gateway is a good one.
        match unsafe { ffi::polorowan_remove_link(self.raw.as_ptr(), link, &mut count) } {
            0 => Ok(count),
            _ => Err(NoLink),
        }
    }

    /// Forgets the context of one CID of a link, and no other. Returns how many went, 0 or 1.
    ///
    /// # Errors
    ///
    /// There is no such link.
    pub fn forget(&mut self, link: u16, cid: u16) -> Result<usize, NoLink> {
        let mut count = 0;
        // SAFETY: the gateway is a good one.
        match unsafe { ffi::polorowan_forget(self.raw.as_ptr(), link, cid, &mut count) } {
            0 => Ok(count),
            _ => Err(NoLink),
        }
    }

    /// Forgets the contexts of a link that have expired at a moment. Returns how many went.
    ///
    /// # Errors
    ///
    /// There is no such link.
    pub fn forget_expired(&mut self, link: u16, moment: u64) -> Result<usize, NoLink> {
        let mut count = 0;
        // SAFETY: the gateway is a good one.
        match unsafe { ffi::polorowan_forget_expired(self.raw.as_ptr(), link, moment, &mut count) } {
            0 => Ok(count),
            _ => Err(NoLink),
        }
    }

    /// Forgets every context of a link.
    ///
    /// # Errors
    ///
    /// There is no such link.
    pub fn reset(&mut self, link: u16) -> Result<(), NoLink> {
        // SAFETY: the gateway is a good one.
        match unsafe { ffi::polorowan_reset(self.raw.as_ptr(), link) } {
            0 => Ok(()),
            _ => Err(NoLink),
        }
    }

    /// Whether there is a context for a CID of a link, even one that counts as none because it was idle too long.
    #[must_use]
    pub fn has_context(&self, link: u16, cid: u16) -> bool {
        // SAFETY: the gateway is a good one, and isn't written.
        unsafe { ffi::polorowan_has_context(self.raw.as_ptr(), link, cid) }
    }

    /// Whether the context of a CID of a link has expired at a moment, and so is answered as none is.
    #[must_use]
    pub fn has_expired(&self, link: u16, cid: u16, moment: u64) -> bool {
        // SAFETY: the gateway is a good one, and isn't written.
        unsafe { ffi::polorowan_has_expired(self.raw.as_ptr(), link, cid, moment) }
    }

    /// The numbers of the links, in their order.
    pub fn links(&self) -> impl Iterator<Item = u16> + '_ {
        (0..).map_while(move |place| {
            let mut link = 0;
            // SAFETY: the gateway is a good one, and isn't written.
            unsafe { ffi::polorowan_link_at(self.raw.as_ptr(), place, &mut link) }.then_some(link)
        })
    }

    /// The contexts of a link, in the order of their first IR.
    pub fn contexts(&self, link: u16) -> impl Iterator<Item = Context> + '_ {
        (0..).map_while(move |place| {
            let mut context = ffi::ContextInfo::default();
            // SAFETY: the gateway is a good one, and isn't written.
            unsafe { ffi::polorowan_context_at(self.raw.as_ptr(), link, place, &mut context) }
                .then(|| Context::of(&context))
        })
    }

    /// All that the gateway keeps, as octets. `moment` is that of saving, in milliseconds of the clock of the arrivals.
    /// None, if there is no memory.
    #[must_use]
    pub fn save(&self, moment: u64) -> Option<Vec<u8>> {
        // SAFETY: the buffer is as long as is said, and the gateway isn't written.
        saved(|octets, count| unsafe {
            ffi::polorowan_save(self.raw.as_ptr(), moment, octets.as_mut_ptr(), octets.len(), count)
        })
    }

    /// One link in the same form. None, if there is no such link, or no memory.
    #[must_use]
    pub fn save_link(&self, link: u16, moment: u64) -> Option<Vec<u8>> {
        // SAFETY: the buffer is as long as is said, and the gateway isn't written.
        saved(|octets, count| unsafe {
            ffi::polorowan_save_link(self.raw.as_ptr(), link, moment, octets.as_mut_ptr(), octets.len(), count)
        })
    }
}

/// What a call saves into a buffer that is long enough; it tells how many octets it needs.
fn saved(mut save: impl FnMut(&mut [u8], &mut usize) -> u8) -> Option<Vec<u8>> {
    let (mut octets, mut count) = (vec![0u8; 1], 0);
    loop {
        match save(&mut octets, &mut count) {
            0 => {
                octets.truncate(count);
                return Some(octets);
            }
            2 if octets.len() < count => octets.resize(count, 0),
            _ => return None,
        }
    }
}

impl Drop for Gateway {
    fn drop(&mut self) {
        // SAFETY: the gateway is a good one.
        unsafe { ffi::polorowan_close(self.raw.as_ptr()) }
    }
}

impl fmt::Debug for Gateway {
    fn fmt(&self, f: &mut fmt::Formatter<'_>) -> fmt::Result {
        f.debug_struct("Gateway").field("links", &self.links().collect::<Vec<_>>()).finish_non_exhaustive()
    }
}

fn outcome(told: &ffi::Arrival) -> Outcome {
    let cid = (told.kind == 0).then_some(told.cid);
    match (told.kind, told.outcome, Refusal::of(told.outcome)) {
        (1, _, _) => Outcome::OnlyFeedback,
        (_, _, Some(refusal)) => Outcome::Refused { cid, refusal },
        (_, 0, None) => Outcome::Delivered { cid: told.cid },
        (_, _, None) => Outcome::Stored { cid: told.cid },
    }
}
