//! Long losses in a steady call, and what the decompressor's repair must make of the packet after each (docs/FORMATS.md,
//! the three tries). An IR follows, so that no wrong reference stays.

use std::fmt::Write;
use std::rc::Rc;

use crate::crc::crc3;
use crate::flow::{Routed, Table};
use crate::header::Header;
use crate::lsb::mask;
use crate::pcap::Packet;
use crate::random::Random;
use crate::script::{hex, Plan, Written};

/// The links file says that a packet lasts so many milliseconds.
const PACKET_MS: u64 = 20;
/// SN bits of a UO-0.
const BITS: u8 = 4;
/// Packets that arrive between two losses, IRs with them.
const STEADY: usize = 12;

/// The header of a steady call that is so many packets behind this one.
fn behind(header: &Header, stride: u32, packets: i64) -> Header {
    Header {
        sn: (i64::from(header.sn) - packets) as u16,
        ts: (i64::from(header.ts) - packets * i64::from(stride)) as u32,
        identification: (i64::from(header.identification) - packets) as u16,
        ..*header
    }
}

/// How far a UO-0 that comes so many packets after the reference is taken to be from it, if it is moved on by some.
fn taken(distance: i64, moved: i64) -> i64 {
    let first = moved - 1;
    first + (distance - first).rem_euclid(mask(BITS) as i64 + 1)
}

/// What comes out for a UO-0 after a loss: the header itself, another with the same check, or none.
pub fn repaired(header: &Header, payload: usize, stride: u32, distance: i64, elapsed: u64) -> Option<Header> {
    let held = taken(distance, 0);
    let moved = (elapsed >= PACKET_MS << BITS).then(|| taken(distance, 1 << BITS));
    // The reference before is one packet further away.
    let before = taken(distance + 1, 0) - 1;
    let check = crc3(&header.covered(payload));
    let tries = [Some(held), moved, Some(before)].into_iter().flatten();
    let headers = tries.map(|place| behind(header, stride, distance - place));
    headers.into_iter().find(|tried| crc3(&tried.covered(payload)) == check)
}

/// Where a call stands between two long losses.
struct Losses {
    random: Random,
    /// Packets that arrived since the last loss, those of this loss, and those that are still to be lost.
    arrived: usize,
    length: u64,
    left: u64,
    last: Option<(Header, u64)>,
}

impl Losses {
    fn loses(&mut self) -> bool {
        let loses = self.left > 0;
        self.left -= u64::from(loses);
        loses
    }

    /// What must come out for a packet that arrives.
    fn out(&self, header: &Header, payload: usize, name: &str, moment: u64) -> Option<Header> {
        match self.last {
            Some((from, then)) if self.length > 0 && name == "uo-0" => {
                let distance = header.sn.wrapping_sub(from.sn);
                let stride = header.ts.wrapping_sub(from.ts).checked_div(u32::from(distance)).unwrap_or(0);
                repaired(header, payload, stride, i64::from(distance), moment.saturating_sub(then))
            }
            _ => Some(*header),
        }
    }

    /// Counts a packet that arrived; whether it was the first after a loss.
    fn arrived(&mut self, header: &Header, moment: u64) -> bool {
        self.last = Some((*header, moment));
        self.arrived += 1;
        let first = self.length > 0;
        if first {
            (self.arrived, self.length) = (0, 0);
        } else if self.arrived == STEADY {
            self.length = 8 + self.random.below(32);
            self.left = self.length;
        }
        first
    }
}

/// Sends the packets of one steady call with long losses.
pub fn run(plan: &Plan, packets: &[Packet]) -> Written {
    let link = plan.link.number;
    let mut table = Table::new(plan.link, Rc::new(plan.settings.clone()), false);
    let random = Random::new(plan.settings.seed);
    let mut losses = Losses { random, arrived: 0, length: 0, left: 0, last: None };
    let mut written = Written::default();
    for packet in packets {
        let Routed::Sent(cid, sent) = table.send(&packet.octets) else { continue };
        let (Some(sent), Some((header, payload))) = (sent.last(), Header::read(&packet.octets)) else { continue };
        written.report.packets += 1;
        if losses.loses() {
            written.report.lost += 1;
            continue;
        }
        let moment = packet.time.saturating_sub(packets[0].time) / 1_000_000;
        written.report.count(sent);
        written.report.arrived += 1;
        let _ = writeln!(written.script, "arrive {link} {moment} {}", hex(&sent.octets));
        if let Some(out) = losses.out(&header, payload.len(), &sent.name, moment) {
            let octets = [&out.octets(payload.len())[..], payload].concat();
            written.report.expected += 1;
            let _ = writeln!(written.expected, "{link} {cid} {}", hex(&octets));
        }
        if losses.arrived(&header, moment) {
            table.sender(cid).into_iter().for_each(|sender| sender.asked(true));
        }
    }
    written
}

#[cfg(test)]
mod tests {
    use super::*;
    use crate::header::tests::worked;

    /// The worked examples, SN 19 after SN 1 and 360 milliseconds, and SN 18, whose check is that of SN 2. Too early,
    /// SN 19 is nothing.
    #[test]
    fn worked_repairs() {
        let repairs = |sn: u16, elapsed| {
            let header = worked(sn, false, sn, 160 * u32::from(sn));
            repaired(&header, 1, 160, i64::from(sn) - 1, elapsed).map(|header| header.sn)
        };
        assert_eq!(repairs(19, 360), Some(19));
        assert_eq!(repairs(19, 100), None);
        assert_eq!(repairs(18, 360), Some(2));
    }

    /// The interval of four bits is from 1 before to 14 after; moved on by 16, from 15 to 30 after.
    #[test]
    fn intervals() {
        assert_eq!([taken(14, 0), taken(15, 0), taken(16, 0)], [14, -1, 0]);
        assert_eq!([taken(15, 16), taken(30, 16), taken(31, 16)], [15, 30, 15]);
    }
}
