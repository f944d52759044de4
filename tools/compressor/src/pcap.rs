//! Classic capture files: read in both orders of octets, in microseconds and nanoseconds, and written.

use crate::fault::{read, Fault};
use crate::header::word;

/// An IP packet and its time in nanoseconds.
#[derive(Clone, Debug, PartialEq, Eq)]
pub struct Packet {
    pub time: u64,
    pub octets: Vec<u8>,
}

/// What a capture holds: its IP packets, and how many records hold none, or not the whole of one.
#[derive(Clone, Debug, Default, PartialEq, Eq)]
pub struct Capture {
    pub packets: Vec<Packet>,
    pub no_ip: u64,
    pub cut_off: u64,
}

/// How packets are framed on the captured link.
#[derive(Clone, Copy, Debug, PartialEq, Eq)]
pub enum Framing {
    Ethernet,
    Vlan,
    Cooked,
    Raw,
}

#[derive(Clone, Copy)]
struct Form {
    big: bool,
    nanoseconds: bool,
    link_type: u32,
}

/// A record above this is no record.
const LONGEST: u32 = 262_144;

fn number(octets: &[u8], at: usize, big: bool) -> u32 {
    let four = [octets[at], octets[at + 1], octets[at + 2], octets[at + 3]];
    if big {
        u32::from_be_bytes(four)
    } else {
        u32::from_le_bytes(four)
    }
}

fn form(octets: &[u8]) -> Result<Form, (usize, &'static str)> {
    if octets.len() < 4 {
        return Err((0, "NotPcap"));
    }
    let big = matches!(number(octets, 0, true), 0xa1b2_c3d4 | 0xa1b2_3c4d);
    let nanoseconds = match number(octets, 0, big) {
        0xa1b2_c3d4 => false,
        0xa1b2_3c4d => true,
        _ => return Err((0, "NotPcap")),
    };
    if octets.len() < 24 {
        return Err((octets.len(), "CutHeader"));
    }
    let link_type = number(octets, 20, big) & 0xffff;
    if !matches!(link_type, 1 | 12 | 14 | 101 | 113 | 228 | 229) {
        return Err((20, "LinkType"));
    }
    Ok(Form { big, nanoseconds, link_type })
}

/// The IP packet in a frame.
fn unframed(frame: &[u8], link_type: u32) -> Option<&[u8]> {
    let (mut at, mut kind) = match link_type {
        1 if frame.len() >= 14 => (14, word(frame, 12)),
        113 if frame.len() >= 16 => (16, word(frame, 14)),
        1 | 113 => return None,
        _ => (0, 0x0800),
    };
    while matches!(kind, 0x8100 | 0x88a8 | 0x9100) {
        if frame.len() < at + 4 {
            return None;
        }
        kind = word(frame, at + 2);
        at += 4;
    }
    let packet = &frame[at..];
    let version = packet.first()? >> 4;
    let good = matches!(kind, 0x0800 | 0x86dd) && matches!(version, 4 | 6);
    good.then_some(packet)
}

/// The packet without what stands behind it in its frame; nothing if it isn't there whole.
fn whole(packet: &[u8]) -> Option<&[u8]> {
    let length = match packet[0] >> 4 {
        4 if packet.len() >= 20 => usize::from(word(packet, 2)),
        6 if packet.len() >= 40 => usize::from(word(packet, 4)) + 40,
        _ => return None,
    };
    (length >= 20 && length <= packet.len()).then(|| &packet[..length])
}

impl Capture {
    fn take(&mut self, time: u64, frame: &[u8], link_type: u32) {
        match unframed(frame, link_type).map(whole) {
            None => self.no_ip += 1,
            Some(None) => self.cut_off += 1,
            Some(Some(packet)) => self.packets.push(Packet { time, octets: packet.to_vec() }),
        }
    }

    /// The packets of a capture file's octets, or the place and the name of its fault.
    pub fn of(octets: &[u8]) -> Result<Capture, (usize, &'static str)> {
        let Form { big, nanoseconds, link_type } = form(octets)?;
        let mut capture = Capture::default();
        let mut at = 24;
        while at < octets.len() {
            if octets.len() - at < 16 {
                return Err((at, "CutRecord"));
            }
            let field = |place: usize| number(octets, at + place, big);
            let length = field(8);
            if length > LONGEST {
                return Err((at + 8, "LongRecord"));
            }
            let Some(frame) = octets.get(at + 16..at + 16 + length as usize) else {
                return Err((at, "CutRecord"));
            };
            let part = u64::from(field(4)) * if nanoseconds { 1 } else { 1000 };
            capture.take(u64::from(field(0)) * 1_000_000_000 + part, frame, link_type);
            at += 16 + length as usize;
        }
        Ok(capture)
    }

    /// The packets of capture files together, in the order of their times.
    pub fn of_files(files: &[String]) -> Result<Capture, Fault> {
        let mut all = Capture::default();
        for file in files {
            let capture = Capture::of(&read(file)?);
            let capture = capture.map_err(|(at, name)| Fault::input(file, format!("octet {at}"), name))?;
            all.packets.extend(capture.packets);
            all.no_ip += capture.no_ip;
            all.cut_off += capture.cut_off;
        }
        all.packets.sort_by_key(|packet| packet.time);
        Ok(all)
    }
}

/// A capture file of these packets.
pub fn written(packets: &[Packet], framing: Framing, big: bool, nanoseconds: bool) -> Vec<u8> {
    let four = |value: u32| if big { value.to_be_bytes() } else { value.to_le_bytes() };
    let two = |value: u16| if big { value.to_be_bytes() } else { value.to_le_bytes() };
    let link_type = match framing {
        Framing::Ethernet | Framing::Vlan => 1,
        Framing::Cooked => 113,
        Framing::Raw => 101,
    };
    let magic = if nanoseconds { 0xa1b2_3c4d } else { 0xa1b2_c3d4 };
    let mut octets = [four(magic).to_vec(), two(2).to_vec(), two(4).to_vec()].concat();
    for value in [0, 0, 65_535, link_type] {
        octets.extend(four(value));
    }
    for packet in packets {
        let frame = framed(&packet.octets, framing);
        let part = packet.time % 1_000_000_000 / if nanoseconds { 1 } else { 1000 };
        for value in [(packet.time / 1_000_000_000) as u32, part as u32, frame.len() as u32, frame.len() as u32] {
            octets.extend(four(value));
        }
        octets.extend(frame);
    }
    octets
}

fn framed(packet: &[u8], framing: Framing) -> Vec<u8> {
    let kind: [u8; 2] = if packet[0] >> 4 == 6 { [0x86, 0xdd] } else { [0x08, 0x00] };
    let before: Vec<u8> = match framing {
        Framing::Raw => Vec::new(),
        Framing::Cooked => [&[0, 0, 0, 1, 0, 6, 2, 0, 0, 0, 0, 1, 0, 0][..], &kind].concat(),
        Framing::Ethernet => [&[2, 0, 0, 0, 0, 2, 2, 0, 0, 0, 0, 1][..], &kind].concat(),
        Framing::Vlan => [&[2, 0, 0, 0, 0, 2, 2, 0, 0, 0, 0, 1, 0x81, 0, 0, 7][..], &kind].concat(),
    };
    let mut frame = [&before[..], packet].concat();
    if matches!(framing, Framing::Ethernet | Framing::Vlan) {
        // The shortest frame of Ethernet.
        frame.resize(frame.len().max(60), 0);
    }
    frame
}

#[cfg(test)]
mod tests {
    use super::*;
    use crate::header::tests::worked;

    fn packets() -> Vec<Packet> {
        let octets = |sn| [&worked(sn, false, sn, 160).octets(1)[..], &[0xab]].concat();
        vec![Packet { time: 1_500_000_000, octets: octets(1) }, Packet { time: 1_520_001_000, octets: octets(2) }]
    }

    #[test]
    fn what_is_written_is_read() {
        for framing in [Framing::Ethernet, Framing::Vlan, Framing::Cooked, Framing::Raw] {
            for (big, nanoseconds) in [(false, false), (false, true), (true, false), (true, true)] {
                let capture = Capture::of(&written(&packets(), framing, big, nanoseconds)).unwrap();
                assert_eq!(capture, Capture { packets: packets(), no_ip: 0, cut_off: 0 });
            }
        }
    }

    #[test]
    fn faults_with_their_places() {
        let good = written(&packets(), Framing::Raw, true, false);
        assert_eq!(Capture::of(&[]), Err((0, "NotPcap")));
        assert_eq!(Capture::of(&good[..20]), Err((20, "CutHeader")));
        assert_eq!(Capture::of(&good[..30]), Err((24, "CutRecord")));
        assert_eq!(Capture::of(&good[..good.len() - 1]), Err((81, "CutRecord")));
        let mut link_type = good.clone();
        link_type[23] = 2;
        assert_eq!(Capture::of(&link_type), Err((20, "LinkType")));
        let mut long = good.clone();
        long[32] = 1;
        assert_eq!(Capture::of(&long), Err((32, "LongRecord")));
    }

    #[test]
    fn frames_without_a_whole_packet_are_counted() {
        let mut none = written(&packets(), Framing::Ethernet, false, false);
        none[24 + 16 + 12] = 0x99;
        let capture = Capture::of(&none).unwrap();
        assert_eq!((capture.packets.len(), capture.no_ip, capture.cut_off), (1, 1, 0));
        let mut long = written(&packets(), Framing::Raw, false, false);
        long[24 + 16 + 3] = 0xff;
        let capture = Capture::of(&long).unwrap();
        assert_eq!((capture.packets.len(), capture.no_ip, capture.cut_off), (1, 0, 1));
    }
}
