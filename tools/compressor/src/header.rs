//! The original header: IPv4 without options, UDP, and RTP without contributing sources.

/// What a header of profile 0x0001 says.
#[derive(Clone, Copy, Debug, PartialEq, Eq)]
pub struct Header {
    pub tos: u8,
    pub identification: u16,
    pub df: bool,
    pub ttl: u8,
    pub source: [u8; 4],
    pub destination: [u8; 4],
    pub source_port: u16,
    pub destination_port: u16,
    pub checksum: u16,
    pub p: bool,
    pub x: bool,
    pub m: bool,
    pub pt: u8,
    pub sn: u16,
    pub ts: u32,
    pub ssrc: u32,
}

/// Two octets of a slice, the most significant first.
pub fn word(octets: &[u8], at: usize) -> u16 {
    u16::from_be_bytes([octets[at], octets[at + 1]])
}

/// Four octets of a slice, the most significant first.
pub fn long(octets: &[u8], at: usize) -> u32 {
    u32::from_be_bytes([octets[at], octets[at + 1], octets[at + 2], octets[at + 3]])
}

/// The complement of the ones' complement sum of the words (RFC 1071).
fn internet_sum(octets: &[u8]) -> u16 {
    let mut sum: u32 = octets.chunks(2).map(|pair| u32::from(word(pair, 0))).sum();
    while sum > 0xffff {
        sum = (sum & 0xffff) + (sum >> 16);
    }
    !(sum as u16)
}

impl Header {
    /// The header and the payload of a packet, if the header can be rebuilt from its fields octet for octet.
    pub fn read(packet: &[u8]) -> Option<(Header, &[u8])> {
        if packet.len() < 40 {
            return None;
        }
        let (head, payload) = packet.split_at(40);
        let four = |at: usize| [head[at], head[at + 1], head[at + 2], head[at + 3]];
        let header = Header {
            tos: head[1],
            identification: word(head, 4),
            df: head[6] & 0x40 != 0,
            ttl: head[8],
            source: four(12),
            destination: four(16),
            source_port: word(head, 20),
            destination_port: word(head, 22),
            checksum: word(head, 26),
            p: head[28] & 0x20 != 0,
            x: head[28] & 0x10 != 0,
            m: head[29] & 0x80 != 0,
            pt: head[29] & 0x7f,
            sn: word(head, 30),
            ts: long(head, 32),
            ssrc: long(head, 36),
        };
        (payload.len() <= 65_495 && header.octets(payload.len())[..] == *head).then_some((header, payload))
    }

    /// Why the header of an IP packet can't be rebuilt from its fields; nothing if it can.
    pub fn refused(packet: &[u8]) -> Option<&'static str> {
        let word = |at: usize| if packet.len() >= at + 2 { word(packet, at) } else { 0 };
        let octet = |at: usize| packet.get(at).copied().unwrap_or_default();
        Some(match Header::read(packet) {
            Some(_) => return None,
            None if octet(0) >> 4 != 4 => "no IPv4",
            None if octet(0) != 0x45 => "IPv4 options",
            None if word(6) & 0x3fff != 0 => "a fragment",
            None if word(6) & 0x8000 != 0 => "the reserved bit of IPv4",
            None if octet(9) != 17 => "no UDP",
            None if packet.len() < 40 => "too short for RTP",
            None if usize::from(word(24)) + 20 != packet.len() => "a length of UDP",
            None if octet(28) >> 6 != 2 => "no RTP version 2",
            None if octet(28) & 0x0f != 0 => "contributing sources",
            None => "a length or checksum of IPv4",
        })
    }

    /// The 40 octets of the header before a payload of this length.
    pub fn octets(&self, payload: usize) -> [u8; 40] {
        let mut head = [0; 40];
        head[0] = 0x45;
        head[1] = self.tos;
        head[2..4].copy_from_slice(&(payload as u16 + 40).to_be_bytes());
        head[4..6].copy_from_slice(&self.identification.to_be_bytes());
        head[6] = u8::from(self.df) << 6;
        head[8] = self.ttl;
        head[9] = 17;
        head[12..16].copy_from_slice(&self.source);
        head[16..20].copy_from_slice(&self.destination);
        let sum = internet_sum(&head[..20]);
        head[10..12].copy_from_slice(&sum.to_be_bytes());
        head[20..22].copy_from_slice(&self.source_port.to_be_bytes());
        head[22..24].copy_from_slice(&self.destination_port.to_be_bytes());
        head[24..26].copy_from_slice(&(payload as u16 + 20).to_be_bytes());
        head[26..28].copy_from_slice(&self.checksum.to_be_bytes());
        head[28] = 0x80 | u8::from(self.p) << 5 | u8::from(self.x) << 4;
        head[29] = u8::from(self.m) << 7 | self.pt;
        head[30..32].copy_from_slice(&self.sn.to_be_bytes());
        head[32..36].copy_from_slice(&self.ts.to_be_bytes());
        head[36..40].copy_from_slice(&self.ssrc.to_be_bytes());
        head
    }

    /// What the 3-bit and the 7-bit check cover: all static octets, then all dynamic ones (RFC 3095 5.9.2).
    pub fn covered(&self, payload: usize) -> Vec<u8> {
        let head = self.octets(payload);
        let fixed = [&head[..2], &head[6..10], &head[12..24], &head[28..29], &head[36..]];
        let moving = [&head[2..6], &head[10..12], &head[24..28], &head[29..36]];
        [fixed.concat(), moving.concat()].concat()
    }
}

#[cfg(test)]
pub mod tests {
    use super::*;

    /// The packets of the worked call: TOS 00, TTL 64, addresses 10.0.0.1 and 10.0.0.2, ports 5000 and 5002.
    pub fn worked(identification: u16, m: bool, sn: u16, ts: u32) -> Header {
        Header {
            tos: 0,
            identification,
            df: false,
            ttl: 64,
            source: [10, 0, 0, 1],
            destination: [10, 0, 0, 2],
            source_port: 5000,
            destination_port: 5002,
            checksum: 0,
            p: false,
            x: false,
            m,
            pt: 0,
            sn,
            ts,
            ssrc: 1,
        }
    }

    #[test]
    fn worked_header() {
        let octets = "45000029000100004011 66c10a0000010a0000021388138a001500008000 0001000000a000000001";
        let packet = crate::script::octets(&(octets.replace(' ', "") + "ab")).unwrap();
        let (header, payload) = Header::read(&packet).unwrap();
        assert_eq!(header, worked(1, false, 1, 160));
        assert_eq!(payload, [0xab]);
    }

    #[test]
    fn what_cannot_be_rebuilt() {
        let good = [&worked(1, false, 1, 160).octets(1)[..], &[0xab]].concat();
        assert!(Header::read(&good).is_some());
        for at in [0, 2, 6, 9, 10, 24, 28] {
            let mut bad = good.clone();
            bad[at] ^= 0x81;
            assert!(Header::read(&bad).is_none(), "octet {at}");
        }
    }

    #[test]
    fn why_it_cannot_be_rebuilt() {
        let good = [&worked(1, false, 1, 160).octets(1)[..], &[0xab]].concat();
        assert_eq!(Header::refused(&good), None);
        let all = [
            (0, 0x20, "no IPv4"),
            (0, 0x03, "IPv4 options"),
            (6, 0x20, "a fragment"),
            (7, 0x01, "a fragment"),
            (6, 0x80, "the reserved bit of IPv4"),
            (9, 0x17, "no UDP"),
            (25, 0x01, "a length of UDP"),
            (28, 0x40, "no RTP version 2"),
            (28, 0x02, "contributing sources"),
            (2, 0x01, "a length or checksum of IPv4"),
            (11, 0x01, "a length or checksum of IPv4"),
        ];
        for (at, bits, cause) in all {
            let mut bad = good.clone();
            bad[at] ^= bits;
            assert_eq!(Header::refused(&bad), Some(cause), "octet {at}");
        }
        assert_eq!(Header::refused(&good[..39]), Some("too short for RTP"));
        assert_eq!(Header::refused(&[]), Some("no IPv4"));
    }
}
