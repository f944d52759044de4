//! IR and IR-DYN of profile 0x0001, and the IR of profile 0x0000 (RFC 3095 5.7.7, 5.10; RFC 5795 5.2).

use crate::crc::crc8;
use crate::lsb::{longer, shortest, spelled};
use crate::reference::Reference;

/// The identifier of a context on its channel.
#[derive(Clone, Copy, Debug, PartialEq, Eq)]
pub enum Cid {
    Small(u8),
    /// The flag asks for two octets where one is enough.
    Large(u16, bool),
}

impl Cid {
    /// The number of the context.
    pub fn number(self) -> u16 {
        match self {
            Cid::Small(number) => u16::from(number),
            Cid::Large(number, _) => number,
        }
    }

    /// The octet before a header, and those after its first octet (RFC 5795 5.1.3).
    fn octets(self) -> (Vec<u8>, Vec<u8>) {
        match self {
            Cid::Small(0) => (Vec::new(), Vec::new()),
            Cid::Small(number) => (vec![0xe0 | number], Vec::new()),
            Cid::Large(number, true) => (Vec::new(), spelled(u32::from(number), 14)),
            Cid::Large(number, false) => (Vec::new(), shortest(u32::from(number))),
        }
    }

    /// The octets that an identifier adds to a packet.
    pub fn added(self) -> usize {
        let (before, after) = self.octets();
        before.len() + after.len()
    }

    /// The octets of a packet with its identifier.
    pub fn frame(self, octets: &[u8]) -> Vec<u8> {
        let (before, after) = self.octets();
        [&before, &octets[..1], &after, &octets[1..]].concat()
    }
}

/// The three kinds of packets that make or renew a context.
#[derive(Clone, Copy, Debug, PartialEq, Eq)]
pub enum Kind {
    Ir,
    IrStatic,
    IrDyn,
}

/// What the sender is free to choose in the chains.
#[derive(Clone, Copy, Debug, PartialEq, Eq)]
pub struct Style {
    pub mode: u8,
    /// The RTP dynamic chain has an octet of flags with X, and in it the stride.
    pub rx: bool,
    pub tss: bool,
    /// A TIME_STRIDE, which is dropped.
    pub time_stride: Option<u32>,
    /// The stride is spelled longer than needed.
    pub wide: bool,
    /// Bits that are ignored.
    pub ignored: u8,
}

impl Style {
    /// The shortest chains that say all.
    pub fn plain(kind: Kind, reference: &Reference, mode: u8) -> Style {
        let tss = reference.stride.is_some();
        let rx = kind == Kind::IrDyn || reference.header.x || tss;
        Style { mode, rx, tss, time_stride: None, wide: false, ignored: 0 }
    }
}

fn static_chain(reference: &Reference, style: &Style) -> Vec<u8> {
    let header = &reference.header;
    let mut chain = vec![0x40 | style.ignored & 0x0f, 17];
    chain.extend(header.source);
    chain.extend(header.destination);
    chain.extend(header.source_port.to_be_bytes());
    chain.extend(header.destination_port.to_be_bytes());
    chain.extend(header.ssrc.to_be_bytes());
    chain
}

fn dynamic_chain(reference: &Reference, style: &Style) -> Vec<u8> {
    let header = &reference.header;
    let mut chain = vec![header.tos, header.ttl];
    chain.extend(header.identification.to_be_bytes());
    let flags = [(header.df, 0x80), (reference.rnd, 0x40), (reference.nbo, 0x20)];
    let flags: u8 = flags.iter().filter(|flag| flag.0).map(|flag| flag.1).sum();
    chain.extend([flags | style.ignored & 0x1f, 0]);
    chain.extend(header.checksum.to_be_bytes());
    chain.push(0x80 | u8::from(header.p) << 5 | u8::from(style.rx) << 4);
    chain.push(u8::from(header.m) << 7 | header.pt);
    chain.extend(header.sn.to_be_bytes());
    chain.extend(header.ts.to_be_bytes());
    chain.push(0);
    if style.rx {
        let tis = u8::from(style.time_stride.is_some()) << 1;
        chain.push(style.ignored & 0xe0 | u8::from(header.x) << 4 | style.mode << 2 | tis | u8::from(style.tss));
        let stride = reference.stride.filter(|_| style.tss);
        chain.extend(stride.map(|stride| longer(stride, style.wide)).unwrap_or_default());
        chain.extend(style.time_stride.map(shortest).unwrap_or_default());
    }
    chain
}

/// A packet from its octets with the check octet as 00, which stands at this place before the identifier is added.
fn checked(cid: Cid, octets: &[u8], covered: usize) -> Vec<u8> {
    let mut packet = cid.frame(octets);
    let added = cid.added();
    let check = crc8(&packet[..covered + added]);
    packet[2 + added] = check;
    packet
}

/// The octets before the payload of an IR, an IR with D=0 or an IR-DYN.
pub fn refresh(kind: Kind, cid: Cid, reference: &Reference, style: &Style) -> Vec<u8> {
    let first = match kind {
        Kind::Ir => 0xfd,
        Kind::IrStatic => 0xfc,
        Kind::IrDyn => 0xf8,
    };
    let mut octets = vec![first, 1, 0];
    if kind != Kind::IrDyn {
        octets.extend(static_chain(reference, style));
    }
    if kind != Kind::IrStatic {
        octets.extend(dynamic_chain(reference, style));
    }
    checked(cid, &octets, octets.len())
}

/// The octets of an IR of profile 0x0000 before its IP packet: the check covers them up to the Profile octet.
pub fn uncompressed(cid: Cid) -> Vec<u8> {
    checked(cid, &[0xfc, 0, 0], 2)
}

#[cfg(test)]
mod tests {
    use super::*;
    use crate::header::tests::worked;
    use crate::script::hex;

    fn reference() -> Reference {
        Reference { header: worked(1, false, 1, 160), rnd: false, nbo: true, stride: Some(160), checksum: false }
    }

    /// The worked IR, its D=0 twin and the IR-DYN that goes with it.
    #[test]
    fn worked_refreshes() {
        let fixed = "40110a0000010a0000021388138a00000001";
        let moving = "004000012000000090000001000000a0000980a0";
        let plain = |kind| Style::plain(kind, &reference(), 2);
        let written = |kind| hex(&refresh(kind, Cid::Small(0), &reference(), &plain(kind)));
        assert_eq!(written(Kind::Ir), format!("fd012b{fixed}{moving}"));
        assert_eq!(written(Kind::IrStatic), format!("fc01de{fixed}"));
        assert_eq!(written(Kind::IrDyn), format!("f8010e{moving}"));
    }

    #[test]
    fn without_a_stride() {
        let none = Reference { stride: None, ..reference() };
        let fixed = "40110a0000010a0000021388138a00000001";
        let octets = hex(&refresh(Kind::Ir, Cid::Small(0), &none, &Style::plain(Kind::Ir, &none, 2)));
        assert_eq!(octets, format!("fd0144{fixed}004000012000000080000001000000a000"));
    }

    #[test]
    fn worked_uncompressed() {
        assert_eq!(hex(&uncompressed(Cid::Small(0))), "fc00b7");
        assert_eq!(hex(&uncompressed(Cid::Small(1))), "e1fc0030");
        assert_eq!(hex(&uncompressed(Cid::Large(300, false))), "fc812c00e6");
    }
}
