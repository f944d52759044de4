//! A whole run: packets in, a script and what must come out of it.

use std::collections::{BTreeMap, HashMap};
use std::fmt::Write;
use std::rc::Rc;

use crate::feedback::{Feedback, Said};
use crate::flow::{Link, Routed, Table};
use crate::pcap::Packet;
use crate::random::Random;
use crate::sender::{Sent, Settings};

/// Octets as a script has them.
pub fn hex(octets: &[u8]) -> String {
    octets.iter().fold(String::new(), |mut text, octet| {
        let _ = write!(text, "{octet:02x}");
        text
    })
}

/// The octets that a script means.
pub fn octets(text: &str) -> Option<Vec<u8>> {
    let digits: Option<Vec<u8>> = text.chars().map(|digit| digit.to_digit(16).map(|value| value as u8)).collect();
    let digits = digits.filter(|digits| digits.len() % 2 == 0)?;
    Some(digits.chunks(2).map(|pair| pair[0] << 4 | pair[1]).collect())
}

/// What a run does.
pub struct Plan {
    pub link: Link,
    pub settings: Settings,
    pub others: bool,
    /// Packets of a hundred that are lost, and how many of a context may be lost in a row.
    pub lose: u64,
    pub burst: usize,
    /// Packets of a hundred whose check is damaged, among those with a check of 7 or 8 bits.
    pub damage: u64,
    /// Padding and feedback for the other direction stand before headers.
    pub front: bool,
    pub feedback: Vec<Feedback>,
}

/// What a run wrote.
#[derive(Default)]
pub struct Written {
    pub script: String,
    pub expected: String,
    pub report: Report,
}

/// The counts of a run.
#[derive(Debug, Default)]
pub struct Report {
    pub packets: u64,
    pub arrived: u64,
    pub lost: u64,
    pub damaged: u64,
    pub expected: u64,
    pub acted_on: u64,
    pub left_out: BTreeMap<&'static str, u64>,
    /// The packets that went by profile 0x0000, counted from 1, by the cause.
    pub plain: BTreeMap<&'static str, Vec<u64>>,
    /// The packets of each name, the octets before their payloads, and the octets of the original headers.
    pub formats: BTreeMap<String, (u64, u64)>,
}

/// Numbers in order, each run of them by its first and its last.
fn ranges(numbers: &[u64]) -> String {
    let mut all: Vec<(u64, u64)> = Vec::new();
    for number in numbers {
        match all.last_mut() {
            Some((_, last)) if *last + 1 == *number => *last = *number,
            _ => all.push((*number, *number)),
        }
    }
    let one = |(first, last)| if first == last { format!("{first}") } else { format!("{first}-{last}") };
    all.into_iter().map(one).collect::<Vec<_>>().join(" ")
}

impl Report {
    pub fn count(&mut self, sent: &Sent) {
        let entry = self.formats.entry(sent.name.clone()).or_default();
        entry.0 += 1;
        entry.1 += sent.header as u64;
    }

    /// The octets before a payload in the mean, of the packets of profile 0x0001.
    pub fn mean_header(&self) -> f64 {
        let of_rtp = self.formats.iter().filter(|(name, _)| !matches!(&name[..], "ir-uncompressed" | "normal"));
        let (packets, octets) = of_rtp.fold((0, 0), |sum, (_, entry)| (sum.0 + entry.0, sum.1 + entry.1));
        octets as f64 / packets.max(1) as f64
    }

    pub fn text(&self) -> String {
        let Report { packets, arrived, lost, damaged, expected, acted_on, .. } = self;
        let mut text = format!("packets {packets} arrived {arrived} lost {lost} damaged {damaged} ");
        let _ = writeln!(text, "expected {expected} feedback {acted_on}");
        for (cause, count) in &self.left_out {
            let _ = writeln!(text, "left out, {cause}: {count}");
        }
        for (cause, numbers) in &self.plain {
            let _ = writeln!(text, "by profile 0x0000, {cause}: {}, packets {}", numbers.len(), ranges(numbers));
        }
        for (name, (count, octets)) in &self.formats {
            let _ = writeln!(text, "{name}: {count}, header octets {:.2}", *octets as f64 / *count as f64);
        }
        let _ = writeln!(text, "header octets in the mean: {:.2}", self.mean_header());
        text
    }
}

/// What happens to packets on the way. So many of a context in a row are lost or damaged at most.
struct Way {
    lose: u64,
    damage: u64,
    burst: usize,
    random: Random,
    in_row: HashMap<u16, usize>,
}

#[derive(Clone, Copy, PartialEq, Eq)]
enum Fate {
    Whole,
    Lost,
    Damaged,
}

impl Way {
    fn fate(&mut self, cid: u16, sent: &Sent) -> Fate {
        let in_row = self.in_row.entry(cid).or_default();
        let (lost, damaged) = (self.random.below(100) < self.lose, self.random.below(100) < self.damage);
        // A longer check with a wrong bit is never right, whatever is tried.
        let long_check = sent.name.starts_with("uor-2") || matches!(&sent.name[..], "ir" | "ir-static" | "ir-dyn");
        let fate = match (*in_row < self.burst, lost, damaged && long_check) {
            (true, true, _) => Fate::Lost,
            (true, false, true) => Fate::Damaged,
            _ => Fate::Whole,
        };
        *in_row = if fate == Fate::Whole { 0 } else { *in_row + 1 };
        fate
    }

    /// Up to three items before a header (RFC 3095 5.2; RFC 5795 5.2.4).
    fn front(&mut self) -> Front {
        let mut front = Front::default();
        for _ in 0..self.random.below(4) {
            let size = self.random.below(12) as usize;
            let data = self.random.octets(size);
            match (self.random.below(3), size) {
                (0, _) => {
                    front.items.push(0xe0);
                    continue;
                }
                (1, 1..=7) => front.items.push(0xf0 | size as u8),
                _ => front.items.extend([0xf0, size as u8]),
            }
            front.items.extend(&data);
            front.relayed.push(data);
        }
        front
    }
}

/// What stands before a header, and what of it is handed on.
#[derive(Default)]
struct Front {
    items: Vec<u8>,
    relayed: Vec<Vec<u8>>,
}

/// A packet on its way.
struct Passage<'a> {
    moment: u64,
    cid: u16,
    sent: &'a Sent,
    packet: &'a Packet,
    fate: Fate,
    front: Front,
}

/// Sends the packets, in this order.
pub fn run(plan: &Plan, packets: &[Packet]) -> Written {
    let mut table = Table::new(plan.link, Rc::new(plan.settings.clone()), plan.others);
    let random = Random::new(plan.settings.seed);
    let Plan { lose, damage, burst, .. } = *plan;
    let mut way = Way { lose, damage, burst, random, in_row: HashMap::new() };
    let mut written = Written::default();
    let start = packets.first().map_or(0, |packet| packet.time);
    for packet in packets {
        written.report.packets += 1;
        let (cid, sent) = match table.send(&packet.octets) {
            Routed::LeftOut(cause) => {
                *written.report.left_out.entry(cause).or_default() += 1;
                continue;
            }
            Routed::Sent(cid, sent) => (cid, sent),
            Routed::Plain(cid, sent, cause) => {
                written.report.plain.entry(cause).or_default().push(written.report.packets);
                (cid, vec![sent])
            }
        };
        let moment = packet.time.saturating_sub(start) / 1_000_000;
        for one in sent {
            written.report.count(&one);
            let fate = way.fate(cid, &one);
            let front = if plan.front { way.front() } else { Front::default() };
            if written.arrive(plan, &Passage { moment, cid, sent: &one, packet, fate, front }) {
                listen(plan, &mut table, &mut written.report, cid, &one);
            }
        }
    }
    written
}

/// Acts on what the decompressor said to the last packet that arrived.
fn listen(plan: &Plan, table: &mut Table, report: &mut Report, cid: u16, sent: &Sent) {
    let event = report.arrived - 1;
    for feedback in plan.feedback.iter().filter(|feedback| feedback.event == event && feedback.cid == cid) {
        report.acted_on += 1;
        match (feedback.said, table.sender(cid)) {
            (Said::First, _) => table.sure(cid),
            (Said::Ack(_), Some(sender)) if sent.name.starts_with("ir") => sender.acknowledged(sent.serial),
            (Said::Nack, Some(sender)) => sender.asked(false),
            (Said::StaticNack, Some(sender)) => sender.asked(true),
            _ => report.acted_on -= 1,
        }
    }
}

impl Written {
    /// Writes an arrival, unless the packet is lost.
    fn arrive(&mut self, plan: &Plan, passage: &Passage) -> bool {
        let link = plan.link.number;
        let Passage { moment, cid, sent, packet, fate, front } = passage;
        if *fate == Fate::Lost {
            self.report.lost += 1;
            return false;
        }
        for data in &front.relayed {
            let data = if data.is_empty() { "-".to_string() } else { hex(data) };
            let _ = writeln!(self.expected, "{link} - {data}");
        }
        let mut octets = [&front.items[..], &sent.octets].concat();
        if *fate == Fate::Damaged {
            self.report.damaged += 1;
            octets[front.items.len() + sent.check] ^= 1;
        } else if sent.carries {
            self.report.expected += 1;
            let _ = writeln!(self.expected, "{link} {cid} {}", hex(&packet.octets));
        }
        self.report.arrived += 1;
        let _ = writeln!(self.script, "arrive {link} {moment} {}", hex(&octets));
        true
    }
}

#[cfg(test)]
mod tests {
    use super::*;

    #[test]
    fn numbers_in_ranges() {
        assert_eq!(ranges(&[]), "");
        assert_eq!(ranges(&[3]), "3");
        assert_eq!(ranges(&[1, 2, 3, 5, 8, 9]), "1-3 5 8-9");
    }
}
