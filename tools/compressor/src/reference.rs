//! What a decompressor may hold of a context (RFC 3095 4.5.2, 5.3.1).

use crate::header::Header;

/// The values of the last accepted header, with those in force that no header carries.
#[derive(Clone, Copy, Debug, PartialEq, Eq)]
pub struct Reference {
    pub header: Header,
    pub rnd: bool,
    pub nbo: bool,
    pub stride: Option<u32>,
    /// Packets carry a UDP checksum.
    pub checksum: bool,
}

/// One of the states in which the decompressor may be.
#[derive(Clone, Copy, Debug, PartialEq, Eq)]
pub enum Held {
    Nothing,
    Static,
    Full(Reference),
}

impl Reference {
    /// The offset of the Identification from the sequence number, with this order of octets (RFC 3095 4.5.5).
    pub fn offset(&self, nbo: bool) -> u16 {
        let identification = self.header.identification;
        let read = if nbo { identification } else { identification.swap_bytes() };
        read.wrapping_sub(self.header.sn)
    }

    /// The other has the same values in the ip octet of an extension 3 and the octets behind it.
    pub fn same_ip(&self, other: &Reference) -> bool {
        self.same_ip_flags(other) && self.header.tos == other.header.tos && self.header.ttl == other.header.ttl
    }

    fn same_ip_flags(&self, other: &Reference) -> bool {
        (self.header.df, self.rnd, self.nbo) == (other.header.df, other.rnd, other.nbo)
    }

    /// The other has the same values in the rtp octet of an extension 3 and the octets behind it.
    pub fn same_rtp(&self, other: &Reference) -> bool {
        self.header.x == other.header.x && self.same_type(other) && self.stride == other.stride
    }

    /// The other has the same padding flag and payload type.
    pub fn same_type(&self, other: &Reference) -> bool {
        (self.header.p, self.header.pt) == (other.header.p, other.header.pt)
    }

    /// The other has all the values that seldom change.
    pub fn same_rest(&self, other: &Reference) -> bool {
        self.same_ip(other) && self.same_rtp(other) && self.checksum == other.checksum
    }

    /// What is kept after a UO-1-ID with an extension 3: four values of the packet, the rest of the reference.
    pub fn moved_on(&self, to: &Header) -> Reference {
        let (sn, ts) = (to.sn, to.ts);
        let (identification, checksum) = (to.identification, to.checksum);
        let header = Header { sn, ts, identification, checksum, m: false, ..self.header };
        Reference { header, ..*self }
    }
}
