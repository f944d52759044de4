//! Captures for tests: calls of several kinds.

use crate::header::Header;
use crate::pcap::Packet;
use crate::random::Random;

/// All kinds, in the order of the help.
pub const KINDS: [&str; 21] = [
    "g711",
    "g729",
    "opus",
    "random-id",
    "swapped-id",
    "zero-id",
    "checksum",
    "checksum-off",
    "tos",
    "flags",
    "stride",
    "two",
    "many",
    "wrap",
    "video",
    "late",
    "jumps",
    "mixed",
    "no-rtp",
    "crowd",
    "sizes",
];

/// A call that goes on.
pub(crate) struct Call {
    pub(crate) header: Header,
    stride: u32,
    identification: u16,
    time: u64,
    random: Random,
}

pub(crate) fn call(number: u16, seed: u64) -> Call {
    let mut random = Random::new(seed.wrapping_mul(977) + u64::from(number));
    let header = Header {
        tos: 0xb8,
        identification: 0,
        df: false,
        ttl: 57,
        source: [192, 0, 2, 1],
        destination: [198, 51, 100, 7],
        source_port: 20_000 + 2 * number,
        destination_port: 30_000 + 2 * number,
        checksum: 0,
        p: false,
        x: false,
        m: false,
        pt: 0,
        sn: random.draw() as u16,
        ts: random.draw() as u32,
        ssrc: random.draw() as u32,
    };
    let identification = random.draw() as u16;
    Call {
        header,
        stride: 160,
        identification,
        time: 1_700_000_000_000_000_000 + u64::from(number) * 3_000_000,
        random,
    }
}

impl Call {
    /// The next packet of the stream: one step of SN, TS and time.
    pub(crate) fn step(&mut self) {
        self.header.sn = self.header.sn.wrapping_add(1);
        self.header.ts = self.header.ts.wrapping_add(self.stride);
        self.header.m = false;
        self.identification = self.identification.wrapping_add(1);
        self.header.identification = self.identification;
        self.time += 20_000_000;
    }

    /// A silence of so many strides, after which the marker is set.
    pub(crate) fn silence(&mut self, strides: u32) {
        self.header.ts = self.header.ts.wrapping_add(self.stride * strides);
        self.header.m = true;
        self.time += 20_000_000 * u64::from(strides);
    }

    fn packet(&mut self, length: usize) -> Packet {
        let payload = self.random.octets(length);
        Packet { time: self.time, octets: [&self.header.octets(length)[..], &payload].concat() }
    }

    /// What the kind of the call changes at this packet of so many.
    fn vary(&mut self, kind: &str, at: u64, count: u64) {
        let header = &mut self.header;
        match kind {
            "random-id" => header.identification = self.random.draw() as u16,
            "swapped-id" => header.identification = self.identification.swap_bytes(),
            "zero-id" => (header.identification, header.df) = (0, true),
            "checksum" => header.checksum = self.random.draw() as u16 | 1,
            "checksum-off" => {
                let carried = (at * 4 / count).is_multiple_of(2);
                header.checksum = if carried { self.random.draw() as u16 | 1 } else { 0 };
            }
            "tos" => {
                header.tos = if at < count / 2 || at == count / 4 * 3 { 0 } else { 0x88 };
                header.ttl = if at < count / 3 { 57 } else { 58 };
                header.df = at >= count / 5 * 4;
            }
            "flags" => {
                header.pt = if at % 50 == 49 { 101 } else { 8 };
                header.p = at % 33 >= 30;
                header.x = at >= count / 2;
            }
            "stride" if at == count / 3 => self.stride = 240,
            "stride" if at == count / 3 * 2 => self.stride = 80,
            "late" if self.random.below(30) == 0 => {
                let gap = 1 + self.random.below(20) as u16;
                header.sn = header.sn.wrapping_add(gap);
                header.ts = header.ts.wrapping_add(u32::from(gap) * self.stride);
            }
            "jumps" => self.jump(),
            _ => {}
        }
    }

    fn jump(&mut self) {
        let random = &mut self.random;
        let size = 1u64 << random.below(31);
        match random.below(8) {
            0 => self.header.sn = self.header.sn.wrapping_add(random.below(size) as u16),
            1 => self.header.ts = self.header.ts.wrapping_add(random.below(size) as u32),
            2 => self.identification = self.identification.wrapping_add(random.below(size) as u16),
            3 => self.header.ts = self.header.ts.wrapping_add(self.stride * random.below(5000) as u32),
            4 => self.header.m = true,
            _ => {}
        }
        self.header.identification = self.identification;
    }
}

/// A call of voice: talkspurts with silence between them, 20 milliseconds in a packet.
fn voice(kind: &str, mut call: Call, count: u64) -> Vec<Packet> {
    let mut packets = Vec::new();
    if kind == "opus" {
        call.stride = 960;
        call.header.pt = 111;
    }
    if kind == "g729" {
        call.header.pt = 18;
    }
    if kind == "wrap" {
        (call.header.sn, call.header.ts) = (65_400, (count / 2 * 160) as u32);
        call.header.ts = call.header.ts.wrapping_neg().wrapping_add(77);
        call.identification = 65_450;
    }
    for at in 0..count {
        call.step();
        if kind != "opus" && at % 60 == 0 {
            let strides = call.random.below(200) as u32;
            call.silence(if at == 0 { 0 } else { strides });
        }
        call.vary(kind, at, count);
        let length = match kind {
            "opus" => 20 + call.random.below(80),
            "g729" => 20,
            "sizes" => [0, 1, 0, 1400, call.random.below(65_361)][(at % 5) as usize],
            _ => 160,
        };
        packets.push(call.packet(length as usize));
    }
    packets
}

/// Frames of several packets each with one timestamp, the marker at the last.
fn video(mut call: Call, count: u64) -> Vec<Packet> {
    let mut packets = Vec::new();
    call.header.pt = 96;
    while (packets.len() as u64) < count {
        let parts = 1 + call.random.below(6);
        for part in 0..parts {
            let ts = call.header.ts;
            call.step();
            call.header.ts = ts.wrapping_add(if part == 0 { 3000 } else { 0 });
            call.header.m = part + 1 == parts;
            packets.push(call.packet(900));
        }
    }
    packets.truncate(count as usize);
    packets
}

/// Some packets come late by one to three, and some twice.
fn late(mut packets: Vec<Packet>, seed: u64) -> Vec<Packet> {
    let mut random = Random::new(seed);
    for at in 8..packets.len().saturating_sub(4) {
        let by = 1 + random.below(3) as usize;
        match random.below(25) {
            0 => packets[at..=at + by].rotate_left(1),
            1 => packets[at + 1] = packets[at].clone(),
            _ => {}
        }
    }
    let times: Vec<u64> = (0..packets.len() as u64).map(|at| 1_700_000_000_000_000_000 + at * 20_000_000).collect();
    packets.iter_mut().zip(times).for_each(|(packet, time)| packet.time = time);
    packets
}

/// Packets that are no RTP over IPv4: a question, a segment, an echo, IPv6, and a fragment.
fn no_rtp(count: u64, seed: u64) -> Vec<Packet> {
    let mut random = Random::new(seed + 5);
    let mut packets = Vec::new();
    for at in 0..count {
        let length = 8 + random.below(60) as usize;
        let mut octets = call(9, at).header.octets(length).to_vec();
        octets.extend(random.octets(length));
        match at % 5 {
            0 => octets[28] = 0x12,
            1 => octets[9] = 6,
            2 => octets[9] = 1,
            3 => octets = [&[0x60, 0, 0, 0, 0, length as u8, 17, 64][..], &random.octets(32 + length)].concat(),
            _ => octets[6] = 0x20,
        }
        packets.push(Packet { time: 1_700_000_000_000_000_000 + at * 35_000_000, octets });
    }
    packets
}

/// The packets of a kind.
pub fn packets(kind: &str, count: u64, seed: u64) -> Option<Vec<Packet>> {
    let calls = |number: u16| -> Vec<Packet> {
        let each = count / u64::from(number);
        (0..number).flat_map(|one| voice("g711", call(one, seed), each)).collect()
    };
    let mut packets = match kind {
        "two" => calls(2),
        "many" => calls(12),
        "crowd" => calls(200),
        "video" => video(call(0, seed), count),
        "late" => late(voice(kind, call(0, seed), count), seed),
        "mixed" => [voice("g711", call(0, seed), count / 2), no_rtp(count / 2, seed)].concat(),
        "no-rtp" => no_rtp(count, seed),
        _ if KINDS.contains(&kind) => voice(kind, call(0, seed), count),
        _ => return None,
    };
    packets.sort_by_key(|packet| packet.time);
    Some(packets)
}
