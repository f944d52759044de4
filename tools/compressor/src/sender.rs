//! The sender of one context: which packet is sent for a header (RFC 3095 5.3.1, 5.6).

use std::collections::VecDeque;
use std::rc::Rc;

use crate::formats::{shapes, Changes, Extension, Format, Shape, Tried, Values};
use crate::header::Header;
use crate::ir::{refresh, Cid, Kind, Style};
use crate::learn::{Behaviour, Learner};
use crate::random::Random;
use crate::reference::{Held, Reference};

/// How senders send.
#[derive(Clone, Debug)]
pub struct Settings {
    /// The references of W-LSB (RFC 3095 4.5.2).
    pub window: usize,
    /// How often in a row a change, or an IR, is sent (RFC 3095 5.3.1.1.1).
    pub repeats: usize,
    /// Packets from one IR, or IR-DYN, to the next; 0 for no refreshes.
    pub refresh_ir: u64,
    pub refresh_dyn: u64,
    /// The mode in chains: 1 for U, 2 for O.
    pub mode: u8,
    pub stride: Option<u32>,
    pub static_first: bool,
    /// IRs are sent until the decompressor has acknowledged one.
    pub until_heard: bool,
    pub announce_by_ir_dyn: bool,
    pub passing: bool,
    /// Any packet that means the header may be sent, not the smallest alone.
    pub any: bool,
    /// Names of packets that aren't sent.
    pub without: Vec<String>,
    pub seed: u64,
}

/// One packet of a context.
#[derive(Clone, Debug)]
pub struct Sent {
    pub serial: u64,
    pub octets: Vec<u8>,
    pub name: String,
    /// The octets before the payload.
    pub header: usize,
    /// The place of its check, if it has one of 7 or 8 bits.
    pub check: usize,
    /// It carries the packet that was to be sent.
    pub carries: bool,
}

pub struct Sender {
    cid: Cid,
    settings: Rc<Settings>,
    learner: Learner,
    /// The states in which the decompressor may be, the last packet's last, each with the number of its packet.
    held: VecDeque<(u64, Held)>,
    serial: u64,
    last: Option<Reference>,
    /// The decompressor has acknowledged a packet.
    is_heard: bool,
    since_ir: u64,
    since_dyn: u64,
    zero_checksums: u32,
    random: Random,
}

/// After so many packets without a UDP checksum the context carries none.
const ZERO_CHECKSUMS: u32 = 16;

impl Sender {
    pub fn new(cid: Cid, settings: Rc<Settings>) -> Sender {
        let random = Random::new(settings.seed ^ u64::from(cid.number()) << 32);
        Sender {
            cid,
            learner: Learner::new(settings.stride),
            settings,
            held: VecDeque::from([(0, Held::Nothing)]),
            serial: 0,
            last: None,
            is_heard: false,
            since_ir: 0,
            since_dyn: 0,
            zero_checksums: 0,
            random,
        }
    }

    /// The packets for a header and its payload.
    pub fn send(&mut self, header: &Header, payload: &[u8]) -> Vec<Sent> {
        self.learner.see(header);
        let to = self.target(header);
        let mut sent = Vec::new();
        if self.settings.any {
            sent.extend(self.loosened(&to));
        }
        if self.settings.static_first && self.recent().any(|held| held == Held::Nothing) {
            for _ in 0..self.settings.repeats {
                sent.push(self.refreshed(Kind::IrStatic, &to, &[]));
            }
        }
        let chosen = match self.needed(&to) {
            Some(kind) => Err(kind),
            None => self.chosen(&to).ok_or(Kind::IrDyn),
        };
        sent.push(match chosen {
            Err(kind) => self.refreshed(kind, &to, payload),
            Ok((shape, values)) => self.other(shape, values, &to, payload),
        });
        self.last = Some(to);
        sent
    }

    /// The decompressor has had the packet with this number.
    pub fn acknowledged(&mut self, serial: u64) {
        while self.held.front().is_some_and(|held| held.0 < serial) {
            self.held.pop_front();
        }
    }

    /// The decompressor acknowledges the header whose sequence number has these low 12 bits.
    pub fn heard(&mut self, sn: u16) {
        self.is_heard = true;
        let is_it = |held: &Held| matches!(held, Held::Full(reference) if reference.header.sn & 0xfff == sn);
        if let Some(serial) = self.held.iter().rev().find(|held| is_it(&held.1)).map(|held| held.0) {
            self.acknowledged(serial);
        }
    }

    /// The decompressor asks for an IR-DYN, or for an IR.
    pub fn asked(&mut self, whole: bool) {
        let held = if whole { Held::Nothing } else { Held::Static };
        self.held = VecDeque::from([(self.serial, held)]);
    }

    /// The states after the last packets, one of which has arrived.
    fn recent(&self) -> impl Iterator<Item = Held> + '_ {
        self.held.iter().rev().take(self.settings.repeats).map(|held| held.1)
    }

    fn recent_references(&self) -> Vec<&Reference> {
        let recent = self.held.iter().rev().take(self.settings.repeats);
        recent.filter_map(|held| if let Held::Full(reference) = &held.1 { Some(reference) } else { None }).collect()
    }

    /// The references against which bits must be right; an old one that differs otherwise is gone.
    fn window(&self, to: &Reference) -> Vec<&Reference> {
        let kept = self.held.iter().rev().take(self.settings.window).enumerate();
        kept.filter_map(|(age, held)| match &held.1 {
            Held::Full(reference) if age < self.settings.repeats || reference.same_rest(to) => Some(reference),
            _ => None,
        })
        .collect()
    }

    fn target(&mut self, header: &Header) -> Reference {
        self.zero_checksums = if header.checksum == 0 { self.zero_checksums.saturating_add(1) } else { 0 };
        let carried = self.recent().all(|held| matches!(held, Held::Full(reference) if reference.checksum));
        Reference {
            header: *header,
            rnd: self.learner.behaviour == Behaviour::Random,
            nbo: self.learner.behaviour != Behaviour::Swapped,
            stride: self.learner.stride,
            checksum: header.checksum != 0 || (carried && self.zero_checksums < ZERO_CHECKSUMS),
        }
    }

    /// The IR or IR-DYN that is needed, if one is.
    fn needed(&mut self, to: &Reference) -> Option<Kind> {
        if self.recent().any(|held| held == Held::Nothing) || (self.settings.until_heard && !self.is_heard) {
            return Some(Kind::Ir);
        }
        if self.recent().any(|held| held == Held::Static) {
            return Some(Kind::IrDyn);
        }
        let due = |every: u64, since: u64| every > 0 && since >= every;
        if due(self.settings.refresh_ir, self.since_ir) {
            return Some(Kind::Ir);
        }
        let recent = self.recent_references();
        let changed = self.settings.announce_by_ir_dyn && Changes::between(to, &recent).any();
        let checksum = recent.iter().any(|reference| reference.checksum != to.checksum);
        if checksum || changed || due(self.settings.refresh_dyn, self.since_dyn) {
            return Some(Kind::IrDyn);
        }
        match self.settings.any.then(|| self.random.below(100)) {
            Some(0) => Some(Kind::Ir),
            Some(1 | 2) => Some(Kind::IrDyn),
            _ => None,
        }
    }

    /// The change may pass: the references agree, and the header before had their values.
    fn may_pass(&self, references: &[&Reference]) -> bool {
        let alike = |reference: &&Reference| !reference.rnd && reference.same_rest(references[0]);
        self.settings.passing && references.iter().all(alike) && self.last.as_ref().is_some_and(|last| alike(&last))
    }

    /// The smallest packet that means the header, or any that does.
    fn chosen(&mut self, to: &Reference) -> Option<(Shape, Values)> {
        let (recent, window) = (self.recent_references(), self.window(to));
        let references = [&recent[..], &window[..]].concat();
        let changes = Changes::between(to, &references);
        let tried = Tried { idle_octets: self.settings.any, passing: self.may_pass(&references) };
        let allowed = |shape: &Shape| !self.settings.without.contains(&shape.name());
        let all = shapes(to, &changes, tried).into_iter().filter(allowed);
        let fitting = all.filter_map(|shape| shape.fit(to, &window).map(|values| (shape, values)));
        if !self.settings.any {
            let mut fitting = fitting.peekable();
            // Nothing is smaller than a UO-0, which comes first.
            let smallest = fitting.next_if(|(shape, _)| shape.format == Format::Uo0);
            return smallest.or_else(|| fitting.min_by_key(|(shape, values)| shape.write(to, *values, 0).len()));
        }
        let fitting: Vec<_> = fitting.collect();
        // Extensions 3 have many spellings; three of four times something else is sent, if it can be.
        let plain = fitting.iter().filter(|(shape, _)| !matches!(shape.extension, Extension::Three(_))).count();
        let bound = if plain > 0 && self.random.below(4) > 0 { plain } else { fitting.len() };
        let (mut shape, values) = *fitting.get(self.random.below(bound.max(1) as u64) as usize)?;
        if let Extension::Three(three) = &mut shape.extension {
            *three = three.with_more(to, self.random.draw());
        }
        Some((shape, values))
    }

    /// Spells the identifier anew, and seldom sends an IR with D=0 that nothing asks for; an IR-DYN then follows.
    fn loosened(&mut self, to: &Reference) -> Option<Sent> {
        if let Cid::Large(_, wide) = &mut self.cid {
            *wide = self.random.below(4) == 0;
        }
        let known = self.recent().all(|held| held != Held::Nothing);
        (known && self.random.below(100) == 0).then(|| self.refreshed(Kind::IrStatic, to, &[]))
    }

    /// How the chains of an IR or IR-DYN are spelled.
    fn style(&mut self, kind: Kind, to: &Reference) -> Style {
        let plain = Style::plain(kind, to, self.settings.mode);
        if !self.settings.any {
            return plain;
        }
        // What an IR-DYN doesn't give is kept from the reference, if there is one.
        let full = self.recent().all(|held| matches!(held, Held::Full(_)));
        let alike = |from: &&Reference| (from.header.x, from.stride) == (to.header.x, to.stride);
        let kept = kind == Kind::IrDyn && full && self.held_references().iter().all(alike);
        let bits = self.random.draw();
        let bit = |place: u8| bits >> place & 1 == 1;
        Style {
            mode: (bits >> 8 & 0xff) as u8 % 3,
            rx: (plain.rx && !kept) || bit(0),
            tss: (plain.tss && !kept) || (bit(1) && to.stride.is_some()),
            time_stride: bit(2).then_some((bits >> 16) as u32 & 0xffff),
            wide: bit(3),
            ignored: (bits >> 32) as u8,
        }
    }

    fn held_references(&self) -> Vec<&Reference> {
        self.held
            .iter()
            .filter_map(|held| if let Held::Full(reference) = &held.1 { Some(reference) } else { None })
            .collect()
    }

    fn refreshed(&mut self, kind: Kind, to: &Reference, payload: &[u8]) -> Sent {
        // The checksum of the chain itself says whether packets carry one.
        let to = Reference { checksum: to.header.checksum != 0, ..*to };
        let style = self.style(kind, &to);
        let header = refresh(kind, self.cid, &to, &style);
        let name = match kind {
            Kind::Ir => "ir",
            Kind::IrStatic => "ir-static",
            Kind::IrDyn => "ir-dyn",
        };
        self.since_ir = if kind == Kind::Ir { 0 } else { self.since_ir };
        self.since_dyn = 0;
        let held = if kind == Kind::IrStatic { Held::Static } else { Held::Full(unmarked(to)) };
        self.pushed(held, header, name.to_string(), payload, kind != Kind::IrStatic)
    }

    fn other(&mut self, shape: Shape, values: Values, to: &Reference, payload: &[u8]) -> Sent {
        let header = self.cid.frame(&shape.write(to, values, payload.len()));
        let passes = shape.format == Format::Uo1Id && matches!(shape.extension, Extension::Three(_));
        let next = match self.window(to).first() {
            Some(reference) if passes => reference.moved_on(&to.header),
            _ => *to,
        };
        self.pushed(Held::Full(unmarked(next)), header, shape.name(), payload, true)
    }

    fn pushed(&mut self, held: Held, header: Vec<u8>, name: String, payload: &[u8], carries: bool) -> Sent {
        self.serial += 1;
        self.since_ir += 1;
        self.since_dyn += 1;
        self.held.push_back((self.serial, held));
        while self.held.len() > self.settings.window.max(self.settings.repeats) {
            self.held.pop_front();
        }
        let octets = [&header[..], payload].concat();
        Sent { serial: self.serial, octets, name, header: header.len(), check: self.cid.added() + 2, carries }
    }
}

/// The marker is never kept.
fn unmarked(reference: Reference) -> Reference {
    Reference { header: Header { m: false, ..reference.header }, ..reference }
}
