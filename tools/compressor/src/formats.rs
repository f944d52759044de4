//! The packets of kind Other: which there are, which of them mean a header, and their octets (RFC 3095 5.7.1 to 5.7.5).

use crate::crc::{crc3, crc7};
use crate::lsb::{longer, mask, offset_bits, sn_steps, spelled, ts_by_steps, ts_scaled, ts_unscaled};
use crate::reference::Reference;

#[derive(Clone, Copy, Debug, PartialEq, Eq)]
pub enum Format {
    Uo0,
    Uo1,
    Uo1Id,
    Uo1Ts,
    Uor2,
    Uor2Id,
    Uor2Ts,
}

use Format::{Uo0, Uo1, Uo1Id, Uo1Ts, Uor2, Uor2Id, Uor2Ts};

/// The flags of an extension 3 that aren't values, and the value bits of its timestamp, 0 for none.
#[derive(Clone, Copy, Debug, Default, PartialEq, Eq)]
pub struct Three {
    pub s: bool,
    pub ts: u8,
    pub tsc: bool,
    pub i: bool,
    pub ip: bool,
    pub tos: bool,
    pub ttl: bool,
    pub rtp: bool,
    pub pt: bool,
    pub tss: bool,
    /// What has no effect: the protocol, the Mode, a TIME_STRIDE, a longer spelling of the stride.
    pub pr: bool,
    pub mode: u8,
    pub tis: bool,
    pub wide: bool,
}

/// An extension 0, 1 or 2 by its number, or an extension 3.
#[derive(Clone, Copy, Debug, PartialEq, Eq)]
pub enum Extension {
    None,
    Low(u8),
    Three(Three),
}

/// A packet without its values.
#[derive(Clone, Copy, Debug, PartialEq, Eq)]
pub struct Shape {
    pub format: Format,
    pub extension: Extension,
}

/// The number of bits that each field has, in the base octets and in the extension.
struct Widths {
    sn: (u8, u8),
    ts: (u8, u8),
    id: (u8, u8),
}

/// The bits of each field.
#[derive(Clone, Copy, Debug, PartialEq, Eq)]
pub struct Values {
    sn: u64,
    ts: u64,
    id: u64,
}

impl Format {
    /// The bits of SN, TS and Identification in the base octets.
    fn widths(self) -> (u8, u8, u8) {
        match self {
            Uo0 => (4, 0, 0),
            Uo1 => (4, 6, 0),
            Uo1Id => (4, 0, 5),
            Uo1Ts => (4, 5, 0),
            Uor2 => (6, 6, 0),
            Uor2Id => (6, 0, 5),
            Uor2Ts => (6, 5, 0),
        }
    }

    pub fn name(self) -> &'static str {
        match self {
            Uo0 => "uo-0",
            Uo1 => "uo-1",
            Uo1Id => "uo-1-id",
            Uo1Ts => "uo-1-ts",
            Uor2 => "uor-2",
            Uor2Id => "uor-2-id",
            Uor2Ts => "uor-2-ts",
        }
    }

    /// The format stands with this RND in force.
    fn stands(self, rnd: bool) -> bool {
        match self {
            Uo0 => true,
            Uo1 | Uor2 => rnd,
            _ => !rnd,
        }
    }

    fn carries_marker(self) -> bool {
        !matches!(self, Uo0 | Uo1Id)
    }
}

impl Extension {
    pub fn name(&self) -> &'static str {
        match self {
            Extension::None => "",
            Extension::Low(0) => "+ext0",
            Extension::Low(1) => "+ext1",
            Extension::Low(_) => "+ext2",
            Extension::Three(_) => "+ext3",
        }
    }
}

impl Shape {
    pub fn name(&self) -> String {
        format!("{}{}", self.format.name(), self.extension.name())
    }

    /// The bits of each field; +T comes in 3 or 11 bits, -T in 0 or 8.
    fn widths(&self) -> Widths {
        let (sn, ts, id) = self.format.widths();
        let (sn_more, ts_more, id_more) = match self.extension {
            Extension::None => (0, 0, 0),
            Extension::Low(number) => {
                let (plus, minus) = [(3, 0), (3, 8), (11, 8)][usize::from(number)];
                match self.format {
                    Uor2 => (3, plus + minus, 0),
                    Uor2Ts => (3, plus, minus),
                    _ => (3, minus, plus),
                }
            }
            Extension::Three(three) => (if three.s { 8 } else { 0 }, three.ts, if three.i { 16 } else { 0 }),
        };
        // The offset of flag I stands in place of base bits.
        let id = if id_more == 16 { 0 } else { id };
        Widths { sn: (sn, sn_more), ts: (ts, ts_more), id: (id, id_more) }
    }

    /// All TS bits of the packet are scaled.
    fn scaled(&self, stride: Option<u32>) -> Option<u32> {
        match self.extension {
            Extension::Three(three) if !three.tsc => None,
            _ => stride,
        }
    }

    fn three(&self) -> Option<Three> {
        match self.extension {
            Extension::Three(three) => Some(three),
            _ => None,
        }
    }

    /// The values that mean the header to every one of the references, if there are any.
    pub fn fit(&self, to: &Reference, references: &[&Reference]) -> Option<Values> {
        let rtp = self.three().is_some_and(|three| three.rtp);
        if !self.format.stands(to.rnd) || (to.header.m && !rtp && !self.format.carries_marker()) {
            return None;
        }
        let mut all = references.iter().map(|reference| self.fit_one(to, reference));
        let first = all.next()??;
        all.all(|values| values == Some(first)).then_some(first)
    }

    fn fit_one(&self, to: &Reference, from: &Reference) -> Option<Values> {
        let widths = self.widths();
        let sn_bits = widths.sn.0 + widths.sn.1;
        let steps = sn_steps(sn_bits, from.header.sn, to.header.sn)?;
        let (ts, from_ts) = (to.header.ts, from.header.ts);
        let ts_bits = (widths.ts.0 + widths.ts.1).min(32);
        let ts = match (ts_bits, self.scaled(to.stride)) {
            (0, _) => (ts == ts_by_steps(from_ts, steps, to.stride)).then_some(0)?,
            (bits, Some(stride)) => ts_scaled(bits, from_ts, stride, ts)?,
            (bits, None) => ts_unscaled(bits, from_ts, ts)?,
        };
        let id_bits = widths.id.0 + widths.id.1;
        let id = if to.rnd { 0 } else { offset_bits(id_bits, from.offset(to.nbo), to.offset(to.nbo))? };
        Some(Values { sn: u64::from(to.header.sn) & mask(sn_bits), ts, id })
    }

    /// The octets before the payload, without an identifier.
    pub fn write(&self, to: &Reference, values: Values, payload: usize) -> Vec<u8> {
        let covered = to.header.covered(payload);
        let mut octets = self.base(to, values, &covered);
        match self.extension {
            Extension::None => {}
            Extension::Low(number) => octets.extend(self.low(number, values)),
            Extension::Three(three) => octets.extend(three.write(to, values)),
        }
        if to.rnd {
            octets.extend(to.header.identification.to_be_bytes());
        }
        if to.checksum {
            octets.extend(to.header.checksum.to_be_bytes());
        }
        octets
    }

    fn base(&self, to: &Reference, values: Values, covered: &[u8]) -> Vec<u8> {
        let widths = self.widths();
        let upper = |value: u64, width: (u8, u8)| ((value >> width.1) & mask(width.0)) as u8;
        let (sn, ts) = (upper(values.sn, widths.sn), upper(values.ts, widths.ts));
        let id = upper(values.id, widths.id);
        let marker = u8::from(to.header.m);
        let more = u8::from(self.extension != Extension::None) << 7;
        let last_of_one = |first: u8| first << 7 | sn << 3 | crc3(covered);
        match self.format {
            Uo0 => vec![sn << 3 | crc3(covered)],
            Uo1 => vec![0x80 | ts, last_of_one(marker)],
            Uo1Id => vec![0x80 | id, last_of_one(more >> 7)],
            Uo1Ts => vec![0xa0 | ts, last_of_one(marker)],
            Uor2 => vec![0xc0 | ts >> 1, (ts & 1) << 7 | marker << 6 | sn, more | crc7(covered)],
            Uor2Id => vec![0xc0 | id, marker << 6 | sn, more | crc7(covered)],
            Uor2Ts => vec![0xc0 | ts, 0x80 | marker << 6 | sn, more | crc7(covered)],
        }
    }

    /// An extension 0, 1 or 2: SN(3), +T in 3 or 11 bits, -T in 0 or 8 bits.
    fn low(&self, number: u8, values: Values) -> Vec<u8> {
        let (plus, minus) = match self.format {
            Uor2 if number == 0 => (values.ts, 0),
            Uor2 => (values.ts >> 8, values.ts),
            Uor2Ts => (values.ts, values.id),
            _ => (values.id, values.ts),
        };
        let first = |three_bits: u64| number << 6 | ((values.sn & 7) << 3) as u8 | (three_bits & 7) as u8;
        match number {
            0 => vec![first(plus)],
            1 => vec![first(plus), minus as u8],
            _ => vec![first(plus >> 8), plus as u8, minus as u8],
        }
    }
}

/// Flags in an octet, the first at the most significant bit.
fn flags(all: [bool; 8]) -> u8 {
    all.iter().fold(0, |octet, flag| octet << 1 | u8::from(*flag))
}

impl Three {
    fn write(&self, to: &Reference, values: Values) -> Vec<u8> {
        let header = &to.header;
        let mut octets = vec![flags([true, true, self.s, self.ts > 0, self.tsc, self.i, self.ip, self.rtp])];
        if self.ip {
            octets.push(flags([self.tos, self.ttl, header.df, self.pr, false, to.nbo, to.rnd, false]));
        }
        if self.s {
            octets.push(values.sn as u8);
        }
        if self.ts > 0 {
            octets.extend(spelled((values.ts & mask(self.ts)) as u32, self.ts));
        }
        octets.extend(self.tos.then_some(header.tos));
        octets.extend(self.ttl.then_some(header.ttl));
        octets.extend(self.pr.then_some(17));
        if self.i {
            octets.extend((values.id as u16).to_be_bytes());
        }
        if self.rtp {
            octets.extend(self.rtp_octets(to));
        }
        octets
    }

    fn rtp_octets(&self, to: &Reference) -> Vec<u8> {
        let header = &to.header;
        let rtp = flags([false, false, self.pt, header.m, header.x, false, self.tss, self.tis]);
        let mut octets = vec![self.mode << 6 | rtp];
        octets.extend(self.pt.then_some(u8::from(header.p) << 7 | header.pt));
        if self.tss {
            octets.extend(to.stride.map(|stride| longer(stride, self.wide)).unwrap_or_default());
        }
        octets.extend(self.tis.then_some(100));
        octets
    }

    /// The same extension with more that has no effect, or says what all references have, as these bits ask.
    pub fn with_more(self, to: &Reference, bits: u64) -> Three {
        let bit = |place: u8| bits >> place & 1 == 1;
        Three {
            tos: self.tos || (self.ip && bit(0)),
            ttl: self.ttl || (self.ip && bit(1)),
            pr: self.ip && bit(2),
            pt: self.pt || (self.rtp && bit(3)),
            tss: self.tss || (self.rtp && bit(4) && to.stride.is_some()),
            tis: self.rtp && bit(5),
            wide: bit(6),
            mode: (bits >> 7 & 0xff) as u8 % 3,
            ..self
        }
    }
}

/// The names of all packets of kind Other.
pub fn names() -> Vec<String> {
    let low = [0, 1, 2].map(Extension::Low);
    let extensions = [&[Extension::None][..], &low, &[Extension::Three(Three::default())]].concat();
    let names = |format: Format| {
        let extended = matches!(format, Uo1Id | Uor2 | Uor2Id | Uor2Ts);
        let count = if extended { extensions.len() } else { 1 };
        extensions[..count]
            .iter()
            .map(move |extension| Shape { format, extension: *extension }.name())
            .collect::<Vec<_>>()
    };
    [Uo0, Uo1, Uo1Id, Uo1Ts, Uor2, Uor2Id, Uor2Ts].into_iter().flat_map(names).collect()
}

/// What an extension 3 must give, since not all references have it.
#[derive(Clone, Copy, Debug, Default, PartialEq, Eq)]
pub struct Changes {
    ip: bool,
    tos: bool,
    ttl: bool,
    rtp: bool,
    pt: bool,
    tss: bool,
}

impl Changes {
    pub fn between(to: &Reference, references: &[&Reference]) -> Changes {
        let any = |differs: &dyn Fn(&Reference) -> bool| references.iter().any(|from| differs(from));
        Changes {
            ip: any(&|from| !from.same_ip(to)),
            tos: any(&|from| from.header.tos != to.header.tos),
            ttl: any(&|from| from.header.ttl != to.header.ttl),
            rtp: any(&|from| !from.same_rtp(to)),
            pt: any(&|from| !from.same_type(to)),
            tss: any(&|from| from.stride != to.stride),
        }
    }

    pub fn any(&self) -> bool {
        self.ip || self.rtp
    }
}

/// Which extensions 3 are tried: those with octets that nothing asks for too, and UO-1-ID for a change that passes.
#[derive(Clone, Copy, Debug, Default)]
pub struct Tried {
    pub idle_octets: bool,
    pub passing: bool,
}

/// All packets that can stand for these changes, those without an extension 3 first.
pub fn shapes(to: &Reference, changes: &Changes, tried: Tried) -> Vec<Shape> {
    let mut all = Vec::new();
    if !changes.any() {
        let with = [Uo1Id, Uor2, Uor2Id, Uor2Ts];
        all.extend([Uo0, Uo1, Uo1Ts, Uo1Id, Uor2, Uor2Ts, Uor2Id].map(|format| (format, Extension::None)));
        for number in 0..3 {
            all.extend(with.map(|format| (format, Extension::Low(number))));
        }
    }
    for three in threes(to, changes, tried.idle_octets) {
        let first = if !changes.any() || tried.passing { Some(Uo1Id) } else { None };
        all.extend(first.map(|format| (format, Extension::Three(three))));
        all.extend([Uor2, Uor2Id, Uor2Ts].map(|format| (format, Extension::Three(three))));
    }
    let shapes = all.into_iter().map(|(format, extension)| Shape { format, extension });
    shapes.filter(|shape| shape.format.stands(to.rnd)).collect()
}

/// Each extension with each of the values.
fn each<T: Copy>(all: Vec<Three>, values: &[T], set: fn(&mut Three, T)) -> Vec<Three> {
    let with = |three: &Three| {
        let three = *three;
        values.iter().map(move |value| {
            let mut three = three;
            set(&mut three, *value);
            three
        })
    };
    all.iter().flat_map(with).collect()
}

/// The values of a flag that must be set, may be, or neither.
fn flag_values(must: bool, may: bool) -> &'static [bool] {
    match (must, may) {
        (true, _) => &[true],
        (_, true) => &[false, true],
        _ => &[false],
    }
}

/// The extensions 3 that give all changes.
fn threes(to: &Reference, changes: &Changes, idle_octets: bool) -> Vec<Three> {
    let Changes { ip, tos, ttl, rtp, pt, tss } = *changes;
    let base = Three { ip, tos, ttl, rtp, pt, tss, mode: 2, ..Three::default() };
    let all = vec![base];
    let all = each(all, &[false, true], |three, s| three.s = s);
    let all = each(all, &[0, 7, 14, 21, 29], |three, ts| three.ts = ts);
    let all = each(all, flag_values(false, to.stride.is_some()), |three, tsc| three.tsc = tsc);
    let all = each(all, flag_values(false, !to.rnd), |three, i| three.i = i);
    let all = each(all, flag_values(ip, idle_octets), |three, ip| three.ip = ip);
    // The rtp octet of a marker is no change.
    each(all, flag_values(rtp, idle_octets || to.header.m), |three, rtp| three.rtp = rtp)
}

#[cfg(test)]
mod tests {
    use super::*;
    use crate::header::tests::worked;
    use crate::script::hex;

    fn at(identification: u16, m: bool, sn: u16, ts: u32) -> Reference {
        let header = worked(identification, m, sn, ts);
        Reference { header, rnd: false, nbo: true, stride: Some(160), checksum: false }
    }

    fn spelling(format: Format, extension: Extension, to: &Reference, from: &Reference) -> Option<String> {
        let shape = Shape { format, extension };
        shape.fit(to, &[from]).map(|values| hex(&shape.write(to, values, 1)))
    }

    /// The worked calls: 10, d4c33e, 841f and c00cfa63 64.
    #[test]
    fn worked_packets() {
        let (first, second) = (at(1, false, 1, 160), at(2, false, 2, 320));
        let plain = |format, to: &Reference, from| spelling(format, Extension::None, to, from);
        assert_eq!(plain(Uo0, &second, &first).as_deref(), Some("10"));
        assert_eq!(plain(Uor2Ts, &at(3, true, 3, 3200), &second).as_deref(), Some("d4c33e"));
        assert_eq!(plain(Uo1Id, &at(7, false, 3, 480), &second).as_deref(), Some("841f"));
        let far = at(0x67, false, 100, 0x3e80);
        assert_eq!(spelling(Uor2Id, Extension::Low(1), &far, &second).as_deref(), Some("c00cfa6364"));
    }

    /// RND turned on by an extension 3 with an ip octet alone: c183a4 ca06 1234.
    #[test]
    fn worked_extension_three() {
        let second = at(2, false, 2, 320);
        let to = Reference { rnd: true, ..at(0x1234, false, 3, 480) };
        let three = threes(&to, &Changes::between(&to, &[&second]), false);
        let three = three.into_iter().find(|three| !three.s && three.ts == 0 && three.tsc).unwrap();
        assert_eq!(spelling(Uor2, Extension::Three(three), &to, &second).as_deref(), Some("c183a4ca061234"));
        let next = Reference { rnd: true, ..at(0x5678, false, 4, 640) };
        assert_eq!(spelling(Uo0, Extension::None, &next, &to).as_deref(), Some("255678"));
    }

    /// TOS for one packet: 8095 c2 84 b8.
    #[test]
    fn worked_passing_change() {
        let (first, mut to) = (at(1, false, 1, 160), at(2, false, 2, 320));
        to.header.tos = 0xb8;
        let changes = Changes::between(&to, &[&first]);
        let three = threes(&to, &changes, false).into_iter().next().unwrap();
        assert_eq!(spelling(Uo1Id, Extension::Three(three), &to, &first).as_deref(), Some("8095c284b8"));
    }

    /// Three formats have no extension, four have any of four.
    #[test]
    fn all_names() {
        let names = names();
        assert_eq!(names.len(), 3 + 4 * 5);
        assert_eq!((&names[0][..], &names[22][..]), ("uo-0", "uor-2-ts+ext3"));
    }

    #[test]
    fn markers_need_a_place() {
        let (from, to) = (at(1, false, 1, 160), at(2, true, 2, 320));
        assert_eq!(spelling(Uo0, Extension::None, &to, &from), None);
        assert_eq!(spelling(Uo1Id, Extension::None, &to, &from), None);
        assert!(spelling(Uo1Ts, Extension::None, &to, &from).is_some());
    }

    /// References on both sides of the end of TS have different scaled values: 160 doesn't divide 2^32.
    #[test]
    fn scaled_bits_past_the_end() {
        let (early, late) = (at(1, false, 1, 0xffff_ffb0), at(2, false, 2, 0x50));
        let shape = Shape { format: Uor2Ts, extension: Extension::None };
        let to = at(3, false, 3, 0xf0);
        assert!(shape.fit(&to, &[&early]).is_some() && shape.fit(&to, &[&late]).is_some());
        assert_eq!(shape.fit(&to, &[&early, &late]), None);
        let without = Shape { format: Uo0, extension: Extension::None };
        assert!(without.fit(&to, &[&early, &late]).is_some());
    }
}
