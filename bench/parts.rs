//! The work that `timings parts` times, in plain Rust: the same turns and the same output.

use std::time::Instant;

/// The registers that the 256 octets leave, begun from 0, by a polynomial whose coefficients below
/// its highest power are the bits of `lower`, the lowest power in the highest bit.
const fn table(lower: u8) -> [u8; 256] {
    let mut table = [0; 256];
    let mut octet = 0;
    while octet < 256 {
        let mut register = octet as u8;
        let mut bit = 0;
        while bit < 8 {
            register = if register & 1 == 1 { register >> 1 ^ lower } else { register >> 1 };
            bit += 1;
        }
        table[octet] = register;
        octet += 1;
    }
    table
}

static CRC3: [u8; 256] = table(0x06);
static CRC8: [u8; 256] = table(0xe0);

fn crc3(register: u8, octets: &[u8]) -> u8 {
    octets.iter().fold(register & 0x07, |register, octet| CRC3[usize::from(register ^ octet)])
}

fn crc8(register: u8, octets: &[u8]) -> u8 {
    octets.iter().fold(register, |register, octet| CRC8[usize::from(register ^ octet)])
}

fn internet_sum(octets: &[u8]) -> u16 {
    let mut total = 0u32;
    for pair in octets.chunks_exact(2) {
        total += u32::from(u16::from_be_bytes([pair[0], pair[1]]));
    }
    while total > 0xffff {
        total = (total & 0xffff) + (total >> 16);
    }
    !(total as u16)
}

struct Static {
    source: [u8; 4],
    destination: [u8; 4],
    source_port: u16,
    destination_port: u16,
    ssrc: u32,
}

struct Dynamic {
    tos: u8,
    ttl: u8,
    id: u16,
    df: bool,
    udp_sum: u16,
    padding: bool,
    extension: bool,
    marker: bool,
    payload_type: u8,
    sn: u16,
    ts: u32,
}

struct Header {
    octets: [u8; 40],
}

impl Header {
    fn build(fixed: &Static, moving: &Dynamic, payload_len: usize) -> Option<Header> {
        if payload_len > 65_495 {
            return None;
        }
        let payload_len = payload_len as u16;
        let mut octets = [0; 40];
        octets[0] = 0x45;
        octets[1] = moving.tos;
        octets[2..4].copy_from_slice(&(40 + payload_len).to_be_bytes());
        octets[4..6].copy_from_slice(&moving.id.to_be_bytes());
        octets[6] = u8::from(moving.df) << 6;
        octets[8] = moving.ttl;
        octets[9] = 17;
        octets[12..16].copy_from_slice(&fixed.source);
        octets[16..20].copy_from_slice(&fixed.destination);
        let sum = internet_sum(&octets[..20]);
        octets[10..12].copy_from_slice(&sum.to_be_bytes());
        octets[20..22].copy_from_slice(&fixed.source_port.to_be_bytes());
        octets[22..24].copy_from_slice(&fixed.destination_port.to_be_bytes());
        octets[24..26].copy_from_slice(&(20 + payload_len).to_be_bytes());
        octets[26..28].copy_from_slice(&moving.udp_sum.to_be_bytes());
        octets[28] = 0x80 | u8::from(moving.padding) << 5 | u8::from(moving.extension) << 4;
        octets[29] = u8::from(moving.marker) << 7 | moving.payload_type;
        octets[30..32].copy_from_slice(&moving.sn.to_be_bytes());
        octets[32..36].copy_from_slice(&moving.ts.to_be_bytes());
        octets[36..40].copy_from_slice(&fixed.ssrc.to_be_bytes());
        Some(Header { octets })
    }

    fn check3_from(&self, register: u8) -> u8 {
        let octets = &self.octets;
        let register = crc3(register, &octets[2..6]);
        let register = crc3(register, &octets[10..12]);
        let register = crc3(register, &octets[24..28]);
        crc3(register, &octets[29..36])
    }
}

#[inline(never)]
fn check_texts(turns: u32, text: &[u8]) -> u8 {
    let mut register = 0xff;
    for _ in 0..turns {
        register = crc8(register, text);
    }
    register
}

#[inline(never)]
fn build_and_check(fixed: &Static, moving: &Dynamic, payload_len: usize, register: u8) -> u8 {
    match Header::build(fixed, moving, payload_len) {
        Some(header) => header.check3_from(register),
        None => register,
    }
}

fn check_headers(turns: u32) -> u8 {
    let fixed = Static {
        source: [10, 0, 0, 1],
        destination: [10, 0, 0, 2],
        source_port: 5000,
        destination_port: 5002,
        ssrc: 1,
    };
    let mut register = 0x07;
    let mut sn = 0u16;
    let mut ts = 0u32;
    for _ in 0..turns {
        sn = sn.wrapping_add(1);
        ts = ts.wrapping_add(160);
        let moving = Dynamic {
            tos: 0,
            ttl: 64,
            id: sn,
            df: false,
            udp_sum: 0,
            padding: false,
            extension: false,
            marker: false,
            payload_type: 0,
            sn,
            ts,
        };
        register = build_and_check(&fixed, &moving, 33, register);
    }
    register
}

fn main() {
    let turns = std::env::args().nth(1).and_then(|word| word.parse().ok()).unwrap_or(1000);

    let start = Instant::now();
    let register = check_texts(turns, &[0x5a; 64]);
    let nanos = start.elapsed().as_nanos();
    println!("crc8 {register:02x}");
    eprintln!("crc8 {nanos}");

    let start = Instant::now();
    let register = check_headers(turns);
    let nanos = start.elapsed().as_nanos();
    println!("headers {register:x}");
    eprintln!("headers {nanos}");
}
