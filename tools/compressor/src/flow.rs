//! Which packets make a flow, and which context a flow has (RFC 3095 5.3.1, 5.10; RFC 5795 5.1.3).

use std::collections::HashMap;
use std::rc::Rc;

use crate::header::Header;
use crate::ir::{uncompressed, Cid};
use crate::sender::{Sender, Sent, Settings};

/// The link on which the packets go.
#[derive(Clone, Copy, Debug, PartialEq, Eq)]
pub struct Link {
    pub number: u16,
    pub large: bool,
    pub max_cid: u16,
    /// The link is in O mode, else in U mode.
    pub o_mode: bool,
}

impl Link {
    /// The identifier with this number.
    pub fn cid(&self, number: u16) -> Cid {
        if self.large {
            Cid::Large(number, false)
        } else {
            Cid::Small(number as u8)
        }
    }

    /// A links file with this link.
    pub fn file(&self) -> String {
        let Link { number, max_cid, .. } = self;
        let cid = if self.large { "large" } else { "small" };
        let mode = if self.o_mode { "O" } else { "U" };
        format!(
            "version = 1\n[[link]]\nnumber = {number}\ncid = \"{cid}\"\nmax_cid = {max_cid}\nmode = \"{mode}\"\n\
             k1 = 2\nn1 = 3\nk2 = 2\nn2 = 3\npacket_ms = 20\nstatic_nack_ms = 1000\ndeliver_port = 6001\n\
             feedback_port = 6002\nrelay_port = 6003\n"
        )
    }
}

type Ends = ([u8; 4], [u8; 4], u16, u16);

fn ends(header: &Header) -> Ends {
    (header.source, header.destination, header.source_port, header.destination_port)
}

/// How steady the SSRC and the payload type between two ports are: what changes them often is no RTP.
#[derive(Default)]
struct Steadiness {
    packets: u64,
    changes: u64,
    last: Option<(u32, u8)>,
}

impl Steadiness {
    fn steady(&mut self, header: &Header) -> bool {
        let now = (header.ssrc, header.pt);
        self.packets += 1;
        self.changes += u64::from(self.last.is_some_and(|last| last != now));
        self.last = Some(now);
        self.packets < 8 || self.changes * 4 <= self.packets
    }
}

/// A context of this link.
enum Context {
    Rtp {
        key: (Ends, u32),
        sender: Box<Sender>,
        used: u64,
    },
    /// Profile 0x0000: the packets to the next IR that may be left out, and those since the last IR.
    Plain {
        unsure: usize,
        since_ir: u64,
        serial: u64,
    },
}

/// What became of a packet.
pub enum Routed {
    Sent(u16, Vec<Sent>),
    /// By profile 0x0000, and why.
    Plain(u16, Sent, &'static str),
    LeftOut(&'static str),
}

/// The contexts of a link.
pub struct Table {
    link: Link,
    settings: Rc<Settings>,
    /// What isn't of profile 0x0001 goes by profile 0x0000.
    others: bool,
    steadiness: HashMap<Ends, Steadiness>,
    flows: HashMap<(Ends, u32), u16>,
    contexts: Vec<Context>,
    plain: Option<u16>,
    packets: u64,
}

/// A longer packet might not fit in a line of a script with its IR and what stands before it.
const LONGEST: usize = 65_400;

impl Table {
    pub fn new(link: Link, settings: Rc<Settings>, others: bool) -> Table {
        Table {
            link,
            settings,
            others,
            steadiness: HashMap::new(),
            flows: HashMap::new(),
            contexts: Vec::new(),
            plain: None,
            packets: 0,
        }
    }

    /// Sends an IP packet.
    pub fn send(&mut self, packet: &[u8]) -> Routed {
        self.packets += 1;
        if packet.len() > LONGEST {
            return Routed::LeftOut("too long");
        }
        let cause = match Header::read(packet) {
            Some((header, payload)) => match self.no_rtp(&header) {
                None => return self.send_rtp(&header, payload),
                Some(cause) => cause,
            },
            None => Header::refused(packet).unwrap_or_default(),
        };
        if self.others {
            self.send_plain(packet, cause)
        } else {
            Routed::LeftOut("no RTP")
        }
    }

    /// Why a header that can be rebuilt isn't one of RTP; nothing if it is.
    fn no_rtp(&mut self, header: &Header) -> Option<&'static str> {
        // The types of RTCP, with and without the marker's bit (RFC 5761 4).
        if matches!(header.pt, 64..=95) {
            Some("a type of RTCP")
        } else if !self.steadiness.entry(ends(header)).or_default().steady(header) {
            Some("an unsteady SSRC or payload type")
        } else {
            None
        }
    }

    fn send_rtp(&mut self, header: &Header, payload: &[u8]) -> Routed {
        let key = (ends(header), header.ssrc);
        let Some(number) = self.flows.get(&key).copied().or_else(|| self.begin(key)) else {
            return Routed::LeftOut("no identifier");
        };
        match &mut self.contexts[usize::from(number)] {
            Context::Rtp { sender, used, .. } => {
                *used = self.packets;
                Routed::Sent(number, sender.send(header, payload))
            }
            Context::Plain { .. } => Routed::LeftOut("no identifier"),
        }
    }

    /// A free context, or that of the flow that was silent for the longest time.
    fn begin(&mut self, key: (Ends, u32)) -> Option<u16> {
        let number = self.free().or_else(|| self.longest_silent())?;
        let sender = Box::new(Sender::new(self.link.cid(number), Rc::clone(&self.settings)));
        let context = Context::Rtp { key, sender, used: self.packets };
        match self.contexts.get_mut(usize::from(number)) {
            None => self.contexts.push(context),
            Some(held) => {
                if let Context::Rtp { key, .. } = held {
                    self.flows.remove(key);
                }
                *held = context;
            }
        }
        self.flows.insert(key, number);
        Some(number)
    }

    fn free(&self) -> Option<u16> {
        let next = self.contexts.len();
        (next <= usize::from(self.link.max_cid)).then_some(next as u16)
    }

    fn longest_silent(&self) -> Option<u16> {
        let used = self.contexts.iter().enumerate().filter_map(|(number, context)| match context {
            Context::Rtp { used, .. } => Some((*used, number as u16)),
            Context::Plain { .. } => None,
        });
        used.min().map(|(_, number)| number)
    }

    fn send_plain(&mut self, packet: &[u8], cause: &'static str) -> Routed {
        let Some(number) = self.plain.or_else(|| self.free()) else {
            return Routed::LeftOut("no identifier");
        };
        if self.plain.is_none() {
            self.plain = Some(number);
            self.contexts.push(Context::Plain { unsure: self.settings.repeats, since_ir: 0, serial: 0 });
        }
        let cid = self.link.cid(number);
        let every = self.settings.refresh_ir;
        let Context::Plain { unsure, since_ir, serial } = &mut self.contexts[usize::from(number)] else {
            return Routed::LeftOut("no identifier");
        };
        let ir = *unsure > 0 || (every > 0 && *since_ir >= every);
        *unsure = unsure.saturating_sub(1);
        *since_ir = if ir { 1 } else { *since_ir + 1 };
        *serial += 1;
        let octets = if ir { [&uncompressed(cid), packet].concat() } else { cid.frame(packet) };
        let name = if ir { "ir-uncompressed" } else { "normal" }.to_string();
        let header = octets.len() - packet.len();
        let sent = Sent { serial: *serial, octets, name, header, check: 0, carries: true };
        Routed::Plain(number, sent, cause)
    }

    /// The sender of an identifier, if it is one of profile 0x0001.
    pub fn sender(&mut self, number: u16) -> Option<&mut Sender> {
        match self.contexts.get_mut(usize::from(number))? {
            Context::Rtp { sender, .. } => Some(sender),
            Context::Plain { .. } => None,
        }
    }

    /// The decompressor has the context of profile 0x0000.
    pub fn sure(&mut self, number: u16) {
        if let Some(Context::Plain { unsure, .. }) = self.contexts.get_mut(usize::from(number)) {
            *unsure = 0;
        }
    }
}
