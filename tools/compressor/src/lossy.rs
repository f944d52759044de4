//! A lossy link in both directions, between the sender and a program that decompresses (RFC 3095 4.3, 5.3.2).
//!
//! Packets and feedback are lost in bursts, by the model of Gilbert and Elliott. Bits are damaged one by one, those of
//! payloads too. Packets may come late, or twice. Feedback reaches the sender after a delay. All is drawn from a seed.

use std::collections::BTreeMap;
use std::rc::Rc;

use crate::fault::Fault;
use crate::feedback::{element, Said};
use crate::flow::{Link, Routed, Table};
use crate::live::{Answer, Live};
use crate::pcap::Packet;
use crate::random::Random;
use crate::script::hex;
use crate::sender::{Sent, Settings};

/// What the link does, as shares: of packets and feedback elements, of bits, and of packets.
#[derive(Clone, Copy, Debug, PartialEq)]
pub struct Path {
    pub loss: f64,
    pub errors: f64,
    pub late: f64,
    pub twice: f64,
}

/// Milliseconds to the decompressor, and back.
#[derive(Clone, Copy, Debug, PartialEq, Eq)]
pub struct Delays {
    pub forth: u64,
    pub back: u64,
}

/// In a burst so many are lost, and so seldom it ends: three of its four packets in the mean.
const LOST_IN_BURST: f64 = 0.75;
const BURST_ENDS: f64 = 0.25;
/// Milliseconds from packet to packet.
const PACKET_MS: u64 = 20;
/// The digits of an original header.
const HEADER_DIGITS: usize = 80;

/// Losses in bursts.
struct Bursts {
    begins: f64,
    is_in_burst: bool,
    random: Random,
}

impl Bursts {
    fn new(loss: f64, random: Random) -> Bursts {
        let in_burst = loss / LOST_IN_BURST;
        Bursts { begins: BURST_ENDS * in_burst / (1.0 - in_burst), is_in_burst: false, random }
    }

    fn loses(&mut self) -> bool {
        let changes = if self.is_in_burst { BURST_ENDS } else { self.begins };
        self.is_in_burst ^= self.random.chance(changes);
        self.is_in_burst && self.random.chance(LOST_IN_BURST)
    }
}

/// One direction.
pub struct Way {
    bursts: Bursts,
    errors: f64,
    random: Random,
}

impl Way {
    pub fn new(path: &Path, seed: u64) -> Way {
        Way { bursts: Bursts::new(path.loss, Random::new(seed)), errors: path.errors, random: Random::new(seed + 1) }
    }

    /// Whether the next packet is lost.
    pub fn loses(&mut self) -> bool {
        self.bursts.loses()
    }

    /// Damages bits. Whether one of so many first octets is among them.
    pub fn damage(&mut self, octets: &mut [u8], first: usize) -> bool {
        let mut damaged = false;
        if self.errors > 0.0 {
            for (at, octet) in octets.iter_mut().enumerate() {
                let wrong = (0..8).fold(0, |wrong, bit| wrong | u8::from(self.random.chance(self.errors)) << bit);
                *octet ^= wrong;
                damaged |= wrong != 0 && at < first;
            }
        }
        damaged
    }
}

/// What became of a packet: the worst of what was delivered for it.
#[derive(Clone, Copy, Debug, PartialEq, Eq, PartialOrd, Ord)]
enum Outcome {
    NotDelivered,
    Right,
    /// The header is right, and the payload was damaged on the way.
    Payload,
    Wrong,
}

/// The counts of a run.
#[derive(Clone, Copy, Debug, Default, PartialEq)]
pub struct Counts {
    pub sent: u64,
    pub right: u64,
    pub payload: u64,
    pub wrong: u64,
    pub none: u64,
    /// The octets of all compressed headers.
    pub octets: u64,
    /// Headers that arrived damaged, and those of them for which another header was delivered.
    pub damaged: u64,
    pub passed: u64,
}

impl Counts {
    pub fn mean_header(&self) -> f64 {
        self.octets as f64 / self.sent.max(1) as f64
    }
}

enum Event {
    Arrives { packet: usize, cid: u16, octets: Vec<u8>, damaged: bool },
    Heard(Vec<u8>),
}

/// A run that goes on.
struct Run<'a> {
    live: Live,
    table: Table,
    large: bool,
    delays: Delays,
    path: Path,
    forth: Way,
    back: Way,
    random: Random,
    packets: &'a [Packet],
    outcomes: Vec<Outcome>,
    /// By their times, and then in the order in which they were caused.
    events: BTreeMap<(u64, u64), Event>,
    caused: u64,
    counts: Counts,
}

impl Run<'_> {
    fn cause(&mut self, moment: u64, event: Event) {
        self.caused += 1;
        self.events.insert((moment, self.caused), event);
    }

    fn send(&mut self, moment: u64, packet: usize) {
        let Routed::Sent(cid, sent) = self.table.send(&self.packets[packet].octets) else {
            return;
        };
        for one in sent {
            self.counts.octets += one.header as u64;
            if !self.forth.loses() {
                let late = self.random.chance(self.path.late);
                let by = if late { PACKET_MS * (1 + self.random.below(3)) + PACKET_MS / 2 } else { 0 };
                self.pass(moment + by, packet, cid, &one);
                if self.random.chance(self.path.twice) {
                    let by = PACKET_MS * self.random.below(3) + PACKET_MS / 4;
                    self.pass(moment + by, packet, cid, &one);
                }
            }
        }
    }

    fn pass(&mut self, moment: u64, packet: usize, cid: u16, sent: &Sent) {
        let mut octets = sent.octets.clone();
        let damaged = self.forth.damage(&mut octets, sent.header);
        self.counts.damaged += u64::from(damaged);
        self.cause(moment + self.delays.forth, Event::Arrives { packet, cid, octets, damaged });
    }

    /// Lets happen what happens up to this time.
    fn advance(&mut self, until: u64) -> Result<(), Fault> {
        while let Some(first) = self.events.first_entry().filter(|first| first.key().0 <= until) {
            let ((moment, _), event) = first.remove_entry();
            match event {
                Event::Heard(data) => hear(&mut self.table, &data, self.large),
                Event::Arrives { packet, cid, octets, damaged } => {
                    for answer in self.live.arrive(moment, &octets)? {
                        match answer {
                            Answer::Came(number, came) => self.judge(packet, number == cid, &came, damaged),
                            Answer::Said(data) => self.say(moment, data),
                        }
                    }
                }
            }
        }
        Ok(())
    }

    /// Compares what was delivered with the packet that was sent.
    fn judge(&mut self, packet: usize, same_cid: bool, came: &str, damaged: bool) {
        let wanted = hex(&self.packets[packet].octets);
        let outcome = match same_cid {
            true if came == wanted => Outcome::Right,
            true if came.get(..HEADER_DIGITS) == wanted.get(..HEADER_DIGITS) => Outcome::Payload,
            _ => Outcome::Wrong,
        };
        self.counts.passed += u64::from(damaged && outcome == Outcome::Wrong);
        self.outcomes[packet] = self.outcomes[packet].max(outcome);
    }

    fn say(&mut self, moment: u64, mut data: Vec<u8>) {
        if !self.back.loses() {
            self.back.damage(&mut data, 0);
            self.cause(moment + self.delays.back, Event::Heard(data));
        }
    }

    fn counted(mut self) -> Counts {
        self.counts.sent = self.outcomes.len() as u64;
        for outcome in &self.outcomes {
            *match outcome {
                Outcome::NotDelivered => &mut self.counts.none,
                Outcome::Right => &mut self.counts.right,
                Outcome::Payload => &mut self.counts.payload,
                Outcome::Wrong => &mut self.counts.wrong,
            } += 1;
        }
        self.counts
    }
}

/// Acts on feedback, unless its check is wrong.
pub fn hear(table: &mut Table, data: &[u8], large: bool) {
    let Ok((cid, said)) = element(data, large) else {
        return;
    };
    match (said, table.sender(cid)) {
        (Said::First, _) => table.sure(cid),
        (Said::Ack(sn), Some(sender)) => sender.heard(sn),
        (Said::Nack, Some(sender)) => sender.asked(false),
        (Said::StaticNack, Some(sender)) => sender.asked(true),
        _ => {}
    }
}

/// How the sender and the link are.
#[derive(Clone)]
pub struct Plan {
    pub program: String,
    pub link: Link,
    pub settings: Settings,
    pub delays: Delays,
}

/// Sends packets over the link.
pub fn run(plan: &Plan, path: Path, packets: &[Packet]) -> Result<Counts, Fault> {
    let seed = plan.settings.seed;
    let mut run = Run {
        live: Live::start(&plan.program, plan.link)?,
        table: Table::new(plan.link, Rc::new(plan.settings.clone()), true),
        large: plan.link.large,
        delays: plan.delays,
        path,
        forth: Way::new(&path, seed.wrapping_mul(5)),
        back: Way::new(&path, seed.wrapping_mul(5) + 2),
        random: Random::new(seed.wrapping_mul(5) + 4),
        packets,
        outcomes: vec![Outcome::NotDelivered; packets.len()],
        events: BTreeMap::new(),
        caused: 0,
        counts: Counts::default(),
    };
    let start = packets.first().map_or(0, |packet| packet.time);
    for (at, packet) in packets.iter().enumerate() {
        let moment = packet.time.saturating_sub(start) / 1_000_000;
        run.advance(moment)?;
        run.send(moment, at);
    }
    run.advance(u64::MAX)?;
    run.live.end()?;
    Ok(run.counted())
}

#[cfg(test)]
mod tests {
    use super::*;

    #[test]
    fn bursts_lose_their_share() {
        for loss in [0.0, 0.01, 0.1] {
            let mut bursts = Bursts::new(loss, Random::new(3));
            let lost: Vec<bool> = (0..2_000_000).map(|_| bursts.loses()).collect();
            let share = lost.iter().filter(|lost| **lost).count() as f64 / lost.len() as f64;
            assert!((share - loss).abs() <= loss / 10.0, "{loss}: {share}");
            // In a burst one loss is followed by another more often than not.
            let pairs = lost.windows(2).filter(|pair| pair[0] && pair[1]).count();
            assert!(loss == 0.0 || pairs as f64 > share * 1_000_000.0, "{loss}: {pairs}");
        }
    }

    #[test]
    fn bits_are_damaged_by_their_share() {
        let path = Path { loss: 0.0, errors: 0.001, late: 0.0, twice: 0.0 };
        let mut way = Way::new(&path, 1);
        let mut octets = vec![0; 100_000];
        assert!(way.damage(&mut octets, 100_000));
        let wrong: u32 = octets.iter().map(|octet| octet.count_ones()).sum();
        assert!((700..900).contains(&wrong), "{wrong}");
        assert!(!way.damage(&mut octets, 0));
    }
}
