//! The library for C: its structs and functions, as in polorowan.h.

use std::marker::{PhantomData, PhantomPinned};
use std::os::raw::c_char;

pub(crate) const HEAD_ROOM: usize = 40;
pub(crate) const FEEDBACK_ROOM: usize = 8;
pub(crate) const RANGES: usize = 8;
pub(crate) const NO_MEMORY: u8 = 6;

/// A gateway of the library, which is never seen inside.
#[repr(C)]
pub(crate) struct Gateway {
    _octets: [u8; 0],
    _not_shared: PhantomData<(*mut u8, PhantomPinned)>,
}

#[repr(C)]
#[derive(Clone, Copy, Default)]
pub(crate) struct Range {
    pub(crate) first: u16,
    pub(crate) last: u16,
    pub(crate) optimistic: bool,
}

#[repr(C)]
#[derive(Clone, Copy, Default)]
pub(crate) struct Link {
    pub(crate) link: u16,
    pub(crate) max_cid: u16,
    pub(crate) large: bool,
    pub(crate) optimistic: bool,
    pub(crate) k1: u8,
    pub(crate) n1: u8,
    pub(crate) k2: u8,
    pub(crate) n2: u8,
    pub(crate) range_count: u8,
    pub(crate) packet_ms: u32,
    pub(crate) static_nack_ms: u32,
    pub(crate) idle_ms: u32,
    pub(crate) ranges: [Range; RANGES],
}

#[repr(C)]
#[derive(Clone, Copy, Default)]
pub(crate) struct Arrival {
    pub(crate) kind: u8,
    pub(crate) outcome: u8,
    pub(crate) cid: u16,
    pub(crate) has_packet: bool,
    pub(crate) has_feedback: bool,
    pub(crate) packet_length: usize,
    pub(crate) feedback_length: usize,
    pub(crate) relayed_length: usize,
    pub(crate) relayed_count: usize,
}

#[repr(C)]
#[derive(Clone, Copy, Default, Debug, PartialEq, Eq)]
pub(crate) struct Counts {
    pub(crate) outcomes: [u64; 32],
    pub(crate) feedback_alone: u64,
    pub(crate) words: [u64; 4],
    pub(crate) relayed: u64,
}

#[repr(C)]
#[derive(Clone, Copy, Default)]
pub(crate) struct ContextInfo {
    pub(crate) cid: u16,
    pub(crate) profile: u16,
    pub(crate) state: u8,
    pub(crate) accepted: u64,
}

#[repr(C)]
#[derive(Clone, Copy, Default)]
pub(crate) struct Restored {
    pub(crate) moment: u64,
    pub(crate) links: u64,
    pub(crate) unknown_links: u64,
    pub(crate) other_links: u64,
    pub(crate) contexts: u64,
    pub(crate) left_contexts: u64,
    pub(crate) high_contexts: u64,
}

extern "C" {
    pub(crate) fn polorowan_version() -> *const c_char;
    pub(crate) fn polorowan_open(links: *const Link, count: usize, place: *mut usize, gateway: *mut *mut Gateway)
        -> u8;
    pub(crate) fn polorowan_open_saved(
        links: *const Link,
        count: usize,
        octets: *const u8,
        octets_count: usize,
        restored: *mut Restored,
        place: *mut usize,
        gateway: *mut *mut Gateway,
    ) -> u8;
    pub(crate) fn polorowan_close(gateway: *mut Gateway);
    pub(crate) fn polorowan_arrive(
        gateway: *mut Gateway,
        link: u16,
        moment: u64,
        octets: *const u8,
        count: usize,
        packet: *mut u8,
        packet_room: usize,
        feedback: *mut u8,
        feedback_room: usize,
        relayed: *mut u8,
        relayed_room: usize,
        arrival: *mut Arrival,
    ) -> u8;
    pub(crate) fn polorowan_count(counts: *mut Counts, arrival: *const Arrival, feedback: *const u8, room: usize);
    pub(crate) fn polorowan_add_link(gateway: *mut Gateway, link: *const Link) -> u8;
    pub(crate) fn polorowan_remove_link(gateway: *mut Gateway, link: u16, count: *mut usize) -> u8;
    pub(crate) fn polorowan_change_link(gateway: *mut Gateway, link: *const Link, count: *mut usize) -> u8;
    pub(crate) fn polorowan_forget(gateway: *mut Gateway, link: u16, cid: u16, count: *mut usize) -> u8;
    pub(crate) fn polorowan_forget_expired(gateway: *mut Gateway, link: u16, moment: u64, count: *mut usize) -> u8;
    pub(crate) fn polorowan_reset(gateway: *mut Gateway, link: u16) -> u8;
    pub(crate) fn polorowan_has_context(gateway: *const Gateway, link: u16, cid: u16) -> bool;
    pub(crate) fn polorowan_has_expired(gateway: *const Gateway, link: u16, cid: u16, moment: u64) -> bool;
    pub(crate) fn polorowan_link_at(gateway: *const Gateway, place: usize, link: *mut u16) -> bool;
    pub(crate) fn polorowan_context_at(
        gateway: *const Gateway,
        link: u16,
        place: usize,
        context: *mut ContextInfo,
    ) -> bool;
    pub(crate) fn polorowan_save(
        gateway: *const Gateway,
        moment: u64,
        octets: *mut u8,
        room: usize,
        count: *mut usize,
    ) -> u8;
    pub(crate) fn polorowan_save_link(
        gateway: *const Gateway,
        link: u16,
        moment: u64,
        octets: *mut u8,
        room: usize,
        count: *mut usize,
    ) -> u8;
    pub(crate) fn polorowan_restore_link(
        gateway: *mut Gateway,
        link: u16,
        octets: *const u8,
        octets_count: usize,
        restored: *mut Restored,
        place: *mut usize,
    ) -> u8;
    pub(crate) fn polorowan_name_of(refusal: u8) -> *const c_char;
    pub(crate) fn polorowan_text_of(refusal: u8) -> *const c_char;
}
