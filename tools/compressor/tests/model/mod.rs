//! A reader of packets of profile 0x0001 without states and repair, which shares no code with the sender but the
//! header and its checks. It takes what is sent for granted, and so panics at what no sender may send.

use std::collections::HashMap;

use compressor::crc::{crc3, crc7, crc8};
use compressor::header::Header;

/// What is held of a context.
#[derive(Clone, Copy)]
pub struct Context {
    header: Header,
    rnd: bool,
    nbo: bool,
    stride: Option<i64>,
    checksum: bool,
}

/// The contexts of a link.
#[derive(Default)]
pub struct Model {
    large: bool,
    contexts: HashMap<u16, Context>,
}

/// The octets of a packet, from the front.
struct Octets<'a>(&'a [u8]);

impl Octets<'_> {
    fn number(&mut self, count: usize) -> u64 {
        let (front, rest) = self.0.split_at(count);
        self.0 = rest;
        front.iter().fold(0, |number, octet| number << 8 | u64::from(*octet))
    }

    fn octet(&mut self) -> u8 {
        self.number(1) as u8
    }

    fn four(&mut self) -> [u8; 4] {
        (self.number(4) as u32).to_be_bytes()
    }

    /// A self-describing value and its number of bits.
    fn value(&mut self) -> (u64, u32) {
        let more = self.0[0].leading_ones().min(3);
        let bits = [7, 14, 21, 29][more as usize];
        (self.number(more as usize + 1) & ((1 << bits) - 1), bits)
    }
}

/// The value from `reference - offset` on with these low bits.
fn meant(reference: i64, offset: i64, bits: u64, count: u32) -> i64 {
    let first = reference - offset;
    first + (bits as i64 - first).rem_euclid(1 << count)
}

fn flag(octet: u8, place: u8) -> bool {
    octet >> place & 1 == 1
}

/// The bits of fields as they are read: value and count.
#[derive(Clone, Copy, Default)]
struct Bits(u64, u32);

impl Bits {
    fn more(&mut self, value: u64, count: u32) {
        *self = Bits(self.0 << count | (value & ((1 << count) - 1)), self.1 + count);
    }
}

/// A packet as it is read.
struct Reading {
    to: Context,
    sn: Bits,
    ts: Bits,
    id: Bits,
    whole_id: bool,
    scaled: bool,
}

impl Model {
    pub fn new(large: bool) -> Model {
        Model { large, contexts: HashMap::new() }
    }

    /// The packet that this one stands for; none if it carries none.
    pub fn receive(&mut self, packet: &[u8]) -> Option<Vec<u8>> {
        let mut octets = Octets(packet);
        let mut cid = 0;
        if !self.large && packet[0] >> 4 == 0xe {
            cid = u16::from(octets.octet() & 15);
        }
        let first = octets.octet();
        if self.large {
            cid = octets.value().0 as u16;
        }
        let (next, header, payload) = match first {
            0xfc | 0xfd | 0xf8 => self.refresh(first, cid, packet, octets),
            _ => other(first, self.contexts[&cid], octets),
        };
        self.contexts.insert(cid, next);
        (first != 0xfc).then(|| [&header.octets(payload.len())[..], &payload].concat())
    }

    /// An IR or IR-DYN after its first octet and identifier.
    fn refresh(&self, first: u8, cid: u16, packet: &[u8], mut octets: Octets) -> (Context, Header, Vec<u8>) {
        assert_eq!(octets.octet(), 1);
        let at = packet.len() - octets.0.len();
        let check = octets.octet();
        let (mut header, mut stride) = (EMPTY, None);
        if first == 0xf8 {
            let held = self.contexts[&cid];
            (header, stride) = (held.header, held.stride);
        } else {
            assert_eq!((octets.octet() & 0xf0, octets.octet()), (0x40, 17));
            (header.source, header.destination) = (octets.four(), octets.four());
            (header.source_port, header.destination_port) = (octets.number(2) as u16, octets.number(2) as u16);
            header.ssrc = octets.number(4) as u32;
        }
        let mut context = Context { header, rnd: false, nbo: false, stride, checksum: false };
        if first != 0xfc {
            dynamic(&mut context, &mut octets);
        }
        let mut covered = packet[..packet.len() - octets.0.len()].to_vec();
        covered[at] = 0;
        assert_eq!(crc8(&covered), check);
        (context, context.header, octets.0.to_vec())
    }
}

const EMPTY: Header = Header {
    tos: 0,
    identification: 0,
    df: false,
    ttl: 0,
    source: [0; 4],
    destination: [0; 4],
    source_port: 0,
    destination_port: 0,
    checksum: 0,
    p: false,
    x: false,
    m: false,
    pt: 0,
    sn: 0,
    ts: 0,
    ssrc: 0,
};

fn dynamic(context: &mut Context, octets: &mut Octets) {
    let header = &mut context.header;
    (header.tos, header.ttl, header.identification) = (octets.octet(), octets.octet(), octets.number(2) as u16);
    let flags = octets.octet();
    (header.df, context.rnd, context.nbo) = (flag(flags, 7), flag(flags, 6), flag(flags, 5));
    assert_eq!(octets.octet(), 0);
    header.checksum = octets.number(2) as u16;
    context.checksum = header.checksum != 0;
    let (first, second) = (octets.octet(), octets.octet());
    assert_eq!(first & 0xcf, 0x80);
    header.p = flag(first, 5);
    (header.m, header.pt) = (flag(second, 7), second & 0x7f);
    (header.sn, header.ts) = (octets.number(2) as u16, octets.number(4) as u32);
    assert_eq!(octets.octet(), 0);
    if flag(first, 4) {
        let more = octets.octet();
        header.x = flag(more, 4);
        if flag(more, 0) {
            context.stride = Some(octets.value().0 as i64);
        }
        if flag(more, 1) {
            octets.value();
        }
    }
}

/// A packet of kind Other after its first octet and identifier: what is held then, its header and its payload.
fn other(first: u8, held: Context, mut octets: Octets) -> (Context, Header, Vec<u8>) {
    let mut to = held;
    to.header.m = false;
    let scaled = held.stride.is_some();
    let none = Bits::default();
    let mut read = Reading { to, sn: none, ts: none, id: none, whole_id: false, scaled };
    let (check, passes) = base(first, &mut read, &mut octets);
    let mut header = rebuilt(&read, &held);
    if read.to.rnd {
        header.identification = octets.number(2) as u16;
    }
    if held.checksum {
        header.checksum = octets.number(2) as u16;
    }
    let covered = header.covered(octets.0.len());
    assert_eq!(if first < 0xc0 { crc3(&covered) } else { crc7(&covered) }, check);
    let (sn, ts) = (header.sn, header.ts);
    let (identification, checksum) = (header.identification, header.checksum);
    let kept = Header { sn, ts, identification, checksum, ..held.header };
    let next = if passes { Context { header: kept, ..held } } else { Context { header, ..read.to } };
    (next, header, octets.0.to_vec())
}

/// Reads the base octets and the extension: the check, and whether it is a UO-1-ID with an extension 3.
fn base(first: u8, read: &mut Reading, octets: &mut Octets) -> (u8, bool) {
    if first < 0x80 {
        read.sn.more(u64::from(first >> 3), 4);
        return (first & 7, false);
    }
    let second = octets.octet();
    if first < 0xc0 {
        read.sn.more(u64::from(second >> 3), 4);
        let id = !read.to.rnd && first < 0xa0;
        match (read.to.rnd, id) {
            (true, _) => read.ts.more(u64::from(first), 6),
            (_, true) => read.id.more(u64::from(first), 5),
            _ => read.ts.more(u64::from(first), 5),
        }
        read.to.header.m = !id && flag(second, 7);
        return (second & 7, id && flag(second, 7) && extension(false, read, octets));
    }
    let third = octets.octet();
    read.sn.more(u64::from(second), 6);
    read.to.header.m = flag(second, 6);
    let given = third >= 0x80 && octets.0[0] >= 0xc0 && flag(octets.0[0], 1);
    let rnd = if given { flag(octets.0[1], 1) } else { read.to.rnd };
    match (rnd, flag(second, 7)) {
        (true, t) => read.ts.more(u64::from(first) << 1 | u64::from(t), 6),
        (_, true) => read.ts.more(u64::from(first), 5),
        _ => read.id.more(u64::from(first), 5),
    }
    if third >= 0x80 {
        extension(flag(second, 7), read, octets);
    }
    (third & 0x7f, false)
}

/// Reads an extension, with the T bit of a UOR-2; whether it is an extension 3.
fn extension(t: bool, read: &mut Reading, octets: &mut Octets) -> bool {
    let first = octets.octet();
    if first >= 0xc0 {
        extension_three(first, read, octets);
        return true;
    }
    read.sn.more(u64::from(first >> 3), 3);
    let mut plus = Bits(u64::from(first & 7), 3);
    let mut minus = Bits::default();
    if first >= 0x80 {
        plus.more(u64::from(octets.octet()), 8);
    }
    if first >= 0x40 {
        minus.more(u64::from(octets.octet()), 8);
    }
    match (read.to.rnd, t) {
        (true, _) => {
            read.ts.more(plus.0, plus.1);
            read.ts.more(minus.0, minus.1);
        }
        (_, true) => {
            read.ts.more(plus.0, plus.1);
            read.id.more(minus.0, minus.1);
        }
        _ => {
            read.id.more(plus.0, plus.1);
            read.ts.more(minus.0, minus.1);
        }
    }
    false
}

fn extension_three(first: u8, read: &mut Reading, octets: &mut Octets) {
    let header = &mut read.to.header;
    let ip = if flag(first, 1) { octets.octet() } else { 0 };
    if flag(first, 1) {
        assert_eq!(ip & 0x09, 0);
        (header.df, read.to.nbo, read.to.rnd) = (flag(ip, 5), flag(ip, 2), flag(ip, 1));
    }
    if flag(first, 5) {
        read.sn.more(u64::from(octets.octet()), 8);
    }
    if flag(first, 4) {
        let (value, bits) = octets.value();
        read.ts.more(value, bits);
    }
    header.tos = if flag(ip, 7) { octets.octet() } else { header.tos };
    header.ttl = if flag(ip, 6) { octets.octet() } else { header.ttl };
    if flag(ip, 4) {
        assert_eq!(octets.octet(), 17);
    }
    if flag(first, 2) {
        assert!(!read.to.rnd);
        (read.id, read.whole_id) = (Bits(octets.number(2), 16), true);
    }
    if flag(first, 0) {
        rtp_octets(&mut read.to, octets);
    }
    read.scaled = flag(first, 3);
}

fn rtp_octets(to: &mut Context, octets: &mut Octets) {
    let rtp = octets.octet();
    assert!(rtp & 0x04 == 0 && rtp < 0xc0);
    (to.header.m, to.header.x) = (flag(rtp, 4), flag(rtp, 3));
    if flag(rtp, 5) {
        let kind = octets.octet();
        (to.header.p, to.header.pt) = (flag(kind, 7), kind & 0x7f);
    }
    if flag(rtp, 1) {
        to.stride = Some(octets.value().0 as i64);
    }
    if flag(rtp, 0) {
        octets.value();
    }
}

/// The header from its bits and the reference.
fn rebuilt(read: &Reading, held: &Context) -> Header {
    let from = &held.header;
    let offset = if read.sn.1 <= 4 { 1 } else { (1 << (read.sn.1 - 5)) - 1 };
    let sn = meant(i64::from(from.sn), offset, read.sn.0, read.sn.1);
    let (old, stride) = (i64::from(from.ts), read.to.stride);
    let count = read.ts.1.min(32);
    let bits = read.ts.0 & ((1 << count) - 1);
    let ts = match (count, read.scaled, stride) {
        (0, _, _) => old + (sn - i64::from(from.sn)) * stride.unwrap_or(0),
        (_, true, Some(stride)) => meant(old / stride, (1 << (count - 2)) - 1, bits, count) * stride + old % stride,
        _ => meant(old, (1 << (count - 2)) - 1, bits, count),
    };
    let swapped = |word: u16| if read.to.nbo { word } else { word.swap_bytes() };
    let old_offset = i64::from(swapped(from.identification).wrapping_sub(from.sn));
    let new_offset = if read.whole_id { read.id.0 as i64 } else { meant(old_offset, 0, read.id.0, read.id.1) };
    let identification = swapped((new_offset + sn) as u16);
    Header { sn: sn as u16, ts: ts.rem_euclid(1 << 32) as u32, identification, ..read.to.header }
}
