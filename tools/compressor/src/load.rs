//! Loads for benchmarks: honest calls on one link or many, without loss. Only `rounds` has them in order.

use std::fmt::Write;
use std::rc::Rc;

use crate::flow::Link;
use crate::generate::{call, Call};
use crate::random::Random;
use crate::script::hex;
use crate::sender::{Sender, Settings};

/// All orders, in the order of the help.
pub const ORDERS: [&str; 3] = ["rounds", "scattered", "coming"];

/// Packets of a talkspurt, and of a call in the order `coming`, in the mean.
const TALKSPURT: u64 = 60;
const CALL: u64 = 200;
/// Milliseconds between two packets of a call in the mean.
const PACKET_MS: u64 = 20;

/// The order in which packets of calls come.
#[derive(Clone, Copy, Debug, PartialEq, Eq)]
pub enum Order {
    /// One of each call after another, by ascending CIDs.
    Rounds,
    /// At random, also the first ones. CIDs and link numbers are random numbers.
    Scattered,
    /// So too, and calls end. Then another begins with a CID that is free.
    Coming,
}

/// What is to be made.
pub struct Load {
    pub order: Order,
    pub links: u16,
    /// The calls of each link at a time.
    pub streams: u16,
    pub packets: u64,
    pub seed: u64,
}

struct Stream {
    link: u16,
    cid: u16,
    call: Call,
    sender: Sender,
}

/// The numbers from 0 to the last, in this order or in a random one.
fn numbers(last: u16, is_random: bool, random: &mut Random) -> Vec<u16> {
    let mut all: Vec<u16> = (0..=last).collect();
    if is_random {
        for place in (1..all.len()).rev() {
            all.swap(place, random.below(place as u64 + 1) as usize);
        }
    }
    all
}

/// A link with a CID for each of its streams.
fn link(number: u16, streams: u16) -> Link {
    let large = streams > 16;
    Link { number, large, max_cid: if large { 16_383 } else { 15 }, o_mode: true }
}

/// Each change is sent once, since nothing is lost.
fn settings(seed: u64) -> Settings {
    Settings {
        window: 4,
        repeats: 1,
        refresh_ir: 0,
        refresh_dyn: 0,
        mode: 2,
        stride: Some(160),
        static_first: false,
        until_heard: false,
        announce_by_ir_dyn: false,
        passing: false,
        any: false,
        without: Vec::new(),
        seed,
    }
}

/// Streams that send by turns.
struct Streams<'a> {
    load: &'a Load,
    settings: Rc<Settings>,
    random: Random,
    links: Vec<Link>,
    /// The CIDs that no call of a link has, the next ones last.
    free: Vec<Vec<u16>>,
    all: Vec<Stream>,
    begun: u16,
}

impl Streams<'_> {
    fn of(load: &Load) -> Streams<'_> {
        let mut random = Random::new(load.seed);
        let is_random = load.order != Order::Rounds;
        let named = numbers(u16::MAX, is_random && load.links > 1, &mut random);
        let first = usize::from(load.links == 1);
        let links: Vec<Link> =
            named[first..].iter().take(load.links.into()).map(|&one| link(one, load.streams)).collect();
        let free = links.iter().map(|link| {
            let mut cids = numbers(link.max_cid, is_random, &mut random);
            cids.reverse();
            cids
        });
        let free = free.collect();
        let settings = Rc::new(settings(load.seed));
        let mut made = Streams { load, settings, random, links, free, all: Vec::new(), begun: 0 };
        for _ in 0..load.streams {
            for link in 0..load.links {
                made.begin(link);
            }
        }
        made
    }

    /// A call begins on the link at this place, with a free CID.
    fn begin(&mut self, link: u16) {
        let Some(cid) = self.free[usize::from(link)].pop() else {
            return;
        };
        let seed = self.load.seed.wrapping_add(u64::from(self.begun) << 20);
        self.begun = (self.begun + 1) % 16_384;
        let sender = Sender::new(self.links[usize::from(link)].cid(cid), Rc::clone(&self.settings));
        self.all.push(Stream { link, cid, call: call(self.begun, seed), sender });
    }

    /// The place of the stream that sends now.
    fn next(&mut self, turn: u64) -> usize {
        let count = self.all.len() as u64;
        (if self.load.order == Order::Rounds { turn % count } else { self.random.below(count) }) as usize
    }

    /// Ends the call at a place, and begins another on its link. Its CID is free again, behind others.
    fn replace(&mut self, place: usize) {
        let ended = self.all.swap_remove(place);
        let free = &mut self.free[usize::from(ended.link)];
        free.insert(self.random.below(free.len() as u64 + 1) as usize, ended.cid);
        self.begin(ended.link);
    }
}

/// What a load is: a script, the packets that must come out, and a links file.
#[derive(Default)]
pub struct Written {
    pub script: String,
    pub expected: String,
    pub links: String,
}

/// Makes a load.
pub fn written(load: &Load) -> Written {
    let mut streams = Streams::of(load);
    let mut written = Written { links: links_file(&streams.links), ..Written::default() };
    let count = streams.all.len() as u64;
    for turn in 0..load.packets {
        let place = streams.next(turn);
        let random = &mut streams.random;
        let (length, is_silent) = (20 + random.below(20) as usize, random.below(TALKSPURT) == 0);
        let (strides, payload) = (random.below(200) as u32, random.octets(length));
        let stream = &mut streams.all[place];
        stream.call.step();
        if is_silent {
            stream.call.silence(strides);
        }
        let (link, cid) = (streams.links[usize::from(stream.link)].number, stream.cid);
        for sent in stream.sender.send(&stream.call.header, &payload) {
            let moment = turn * PACKET_MS / count;
            let _ = writeln!(written.script, "arrive {link} {moment} {}", hex(&sent.octets));
        }
        let header = hex(&stream.call.header.octets(length));
        let _ = writeln!(written.expected, "{link} {cid} {header}{}", hex(&payload));
        if load.order == Order::Coming && streams.random.below(CALL) == 0 {
            streams.replace(place);
        }
    }
    written
}

/// A links file with these links.
fn links_file(links: &[Link]) -> String {
    let all: String = links.iter().map(|link| link.file().replace("version = 1\n", "")).collect();
    format!("version = 1\n{all}")
}

#[cfg(test)]
mod tests {
    use super::*;

    fn load(order: Order, links: u16, streams: u16) -> Written {
        written(&Load { order, links, streams, packets: 3000, seed: 7 })
    }

    /// The CIDs, or the links, of the packets that must come out, each once, in the order of their first packets.
    fn firsts(written: &Written, word: usize) -> Vec<u16> {
        let mut all = Vec::new();
        for line in written.expected.lines() {
            let number = line.split(' ').nth(word).and_then(|text| text.parse().ok()).expect("a number");
            if !all.contains(&number) {
                all.push(number);
            }
        }
        all
    }

    #[test]
    fn rounds_are_in_order() {
        assert_eq!(firsts(&load(Order::Rounds, 1, 100), 1), (0..100).collect::<Vec<u16>>());
    }

    #[test]
    fn scattered_calls_are_in_no_order() {
        let cids = firsts(&load(Order::Scattered, 1, 100), 1);
        assert_eq!(cids.len(), 100);
        assert!(!cids.is_sorted());
        let links = firsts(&load(Order::Scattered, 64, 2), 0);
        assert_eq!(links.len(), 64);
        assert!(!links.is_sorted());
    }

    #[test]
    fn cids_come_and_go() {
        let written = load(Order::Coming, 1, 10);
        assert!(firsts(&written, 1).len() > 10);
        assert!(written.script.lines().filter(|line| line.contains("fd01")).count() > 15);
    }
}
