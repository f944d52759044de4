//! What the decompressor said, read from the answers of an earlier run (RFC 3095 5.7.6; RFC 5795 5.2.4).

use crate::crc::crc8;
use crate::fault::Fault;
use crate::script::octets;

#[derive(Clone, Copy, Debug, PartialEq, Eq)]
pub enum Said {
    /// The one octet of profile 0x0000.
    First,
    /// The low 12 bits of a sequence number.
    Ack(u16),
    Nack,
    StaticNack,
}

/// A saying, the context it is about, and the number of the arrival that it answers, from 0.
#[derive(Clone, Copy, Debug, PartialEq, Eq)]
pub struct Feedback {
    pub event: u64,
    pub cid: u16,
    pub said: Said,
}

/// The identifier of an element's data, and what comes behind it.
fn identified(data: &[u8], large: bool) -> Option<(u16, &[u8])> {
    match (large, *data.first()?) {
        (false, first @ 0xe1..=0xef) => Some((u16::from(first & 15), &data[1..])),
        (false, _) => Some((0, data)),
        (true, first @ 0..=0x7f) => Some((u16::from(first), &data[1..])),
        (true, first @ 0x80..=0xbf) => Some((u16::from(first & 0x3f) << 8 | u16::from(*data.get(1)?), &data[2..])),
        _ => None,
    }
}

/// What an element says, if its spelling and its check are good.
pub fn element(octets: &[u8], large: bool) -> Result<(u16, Said), &'static str> {
    let (first, data) = octets.split_first().ok_or("BadElement")?;
    if !(0xf1..=0xf7).contains(first) || data.len() != usize::from(first & 7) {
        return Err("BadElement");
    }
    let (cid, said) = identified(data, large).ok_or("BadElement")?;
    let [one, two, options @ ..] = said else {
        return if said == [0] { Ok((cid, Said::First)) } else { Err("BadElement") };
    };
    let valid = match options {
        [0x11, _] => true,
        [0x30, 0x11, _] => false,
        _ => return Err("BadElement"),
    };
    let covered = [&data[..data.len() - 1], &[0]].concat();
    if crc8(&covered) != data[data.len() - 1] {
        return Err("BadCheck");
    }
    match (one >> 6, valid) {
        (0, true) => Ok((cid, Said::Ack(u16::from(one & 15) << 8 | u16::from(*two)))),
        (1, _) => Ok((cid, Said::Nack)),
        (2, false) => Ok((cid, Said::StaticNack)),
        _ => Err("BadElement"),
    }
}

/// All feedback in answers of this link. A NACK belongs to the refusal after it, all else to the packet before it.
pub fn feedback(file: &str, lines: &[String], link: u16, large: bool) -> Result<Vec<Feedback>, Fault> {
    let link = link.to_string();
    let mut events = 0;
    let mut all = Vec::new();
    for (at, line) in lines.iter().enumerate() {
        let words: Vec<&str> = line.split(' ').collect();
        let fault = |name| Fault::input(file, format!("line {}", at + 1), name);
        match words[..] {
            [number, _, _, ..] if number != link && number != "-" => {}
            [_, _, "ip" | "refused", _] | [_, _, "stored"] => events += 1,
            [_, _, "relay", _] => {}
            [_, _, "feedback", data] => {
                let data = octets(data).ok_or_else(|| fault("BadLine"))?;
                let (cid, said) = element(&data, large).map_err(fault)?;
                let refused = matches!(said, Said::Nack | Said::StaticNack);
                let event = if refused { events } else { u64::max(events, 1) - 1 };
                all.push(Feedback { event, cid, said });
            }
            _ => return Err(fault("BadLine")),
        }
    }
    Ok(all)
}

#[cfg(test)]
mod tests {
    use super::*;

    fn read(text: &str, large: bool) -> Result<(u16, Said), &'static str> {
        element(&octets(text).unwrap(), large)
    }

    #[test]
    fn worked_elements() {
        assert_eq!(read("f100", false), Ok((0, Said::First)));
        assert_eq!(read("f2e100", false), Ok((1, Said::First)));
        assert_eq!(read("f3812c00", true), Ok((300, Said::First)));
        assert_eq!(read("f420011139", false), Ok((0, Said::Ack(1))));
        assert_eq!(read("f42fff11fd", false), Ok((0, Said::Ack(0xfff))));
        assert_eq!(read("f46001110d", false), Ok((0, Said::Nack)));
        assert_eq!(read("f56000301169", false), Ok((0, Said::Nack)));
        assert_eq!(read("f5a00030110c", false), Ok((0, Said::StaticNack)));
    }

    #[test]
    fn bad_elements() {
        assert_eq!(read("f420011138", false), Err("BadCheck"));
        for text in ["", "f0", "f52001113900", "f101", "f3200111", "e420011139"] {
            assert_eq!(read(text, false), Err("BadElement"), "{text}");
        }
    }
}
