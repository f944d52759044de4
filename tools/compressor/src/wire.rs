//! A sender and a line over UDP: IP packets come as datagrams and go as ROHC packets; the line loses, delays and damages.

use std::collections::BTreeMap;
use std::io::ErrorKind;
use std::net::{SocketAddr, UdpSocket};
use std::rc::Rc;
use std::time::{Duration, Instant};

use crate::fault::Fault;
use crate::flow::{Link, Routed, Table};
use crate::lossy::{hear, Path, Way};
use crate::random::Random;
use crate::sender::Settings;

/// The longest datagram.
const LONGEST: usize = 65_535;
/// How long the sender waits for a packet before it looks for feedback.
const PATIENCE: Duration = Duration::from_millis(10);
/// How late a packet is that comes late.
const LATE: Duration = Duration::from_millis(50);

/// The words of `serve`.
pub struct Serve {
    pub link: Link,
    pub settings: Settings,
    /// Where IP packets come, where ROHC packets go, and where feedback comes.
    pub listen: SocketAddr,
    pub send: SocketAddr,
    pub hear: SocketAddr,
}

/// The words of `line`.
pub struct Line {
    pub listen: SocketAddr,
    pub send: SocketAddr,
    pub path: Path,
    pub delay: Duration,
    pub seed: u64,
}

fn bound(address: SocketAddr) -> Result<UdpSocket, Fault> {
    UdpSocket::bind(address).map_err(|_| Fault::input(&address.to_string(), "UDP".to_string(), "NotBound"))
}

/// The next datagram, unless none comes in time.
fn next(socket: &UdpSocket, buffer: &mut [u8]) -> Result<Option<usize>, Fault> {
    match socket.recv(buffer) {
        Ok(size) => Ok(Some(size)),
        Err(error) if matches!(error.kind(), ErrorKind::WouldBlock | ErrorKind::TimedOut | ErrorKind::Interrupted) => {
            Ok(None)
        }
        Err(_) => Err(Fault::input("UDP", "socket".to_string(), "NotReceived")),
    }
}

/// Sends a datagram. A port where nobody listens loses it, as a line would.
fn pass(socket: &UdpSocket, octets: &[u8], to: SocketAddr) {
    let _ = socket.send_to(octets, to);
}

/// Compresses until it is ended: each ROHC packet goes with the number of its link first.
pub fn serve(words: &Serve) -> Result<(), Fault> {
    let (packets, elements) = (bound(words.listen)?, bound(words.hear)?);
    let out = bound(SocketAddr::from(([0, 0, 0, 0], 0)))?;
    let set = packets.set_read_timeout(Some(PATIENCE)).and_then(|()| elements.set_nonblocking(true));
    set.map_err(|_| Fault::input("UDP", "socket".to_string(), "NotSet"))?;
    let mut table = Table::new(words.link, Rc::new(words.settings.clone()), true);
    let mut buffer = vec![0; LONGEST];
    loop {
        let packet = next(&packets, &mut buffer)?.map(|size| buffer[..size].to_vec());
        while let Some(size) = next(&elements, &mut buffer)? {
            hear(&mut table, &buffer[..size], words.link.large);
        }
        let sent = match packet.map(|packet| table.send(&packet)) {
            Some(Routed::Sent(_, sent)) => sent,
            Some(Routed::Plain(_, sent, _)) => vec![sent],
            Some(Routed::LeftOut(_)) | None => Vec::new(),
        };
        for one in sent {
            let front = words.link.number.to_be_bytes();
            pass(&out, &[&front[..], &one.octets].concat(), words.send);
        }
    }
}

/// A line in one direction until it is ended. What it does to datagrams is drawn from the seed.
pub fn line(words: &Line) -> Result<(), Fault> {
    let (socket, out) = (bound(words.listen)?, bound(SocketAddr::from(([0, 0, 0, 0], 0)))?);
    let mut way = Way::new(&words.path, words.seed);
    let mut random = Random::new(words.seed + 2);
    let mut waiting: BTreeMap<(Instant, u64), Vec<u8>> = BTreeMap::new();
    let mut buffer = vec![0; LONGEST];
    let mut count = 0;
    loop {
        let now = Instant::now();
        while let Some(first) = waiting.first_entry().filter(|first| first.key().0 <= now) {
            pass(&out, &first.remove(), words.send);
        }
        let due = waiting.keys().next().map_or(PATIENCE, |(moment, _)| moment.saturating_duration_since(now));
        let timeout = due.clamp(Duration::from_micros(1), PATIENCE);
        socket.set_read_timeout(Some(timeout)).map_err(|_| Fault::input("UDP", "socket".to_string(), "NotSet"))?;
        let Some(size) = next(&socket, &mut buffer)? else {
            continue;
        };
        if way.loses() {
            continue;
        }
        let copies = 1 + usize::from(random.chance(words.path.twice));
        for _ in 0..copies {
            let mut octets = buffer[..size].to_vec();
            // The number of the link isn't on the line.
            way.damage(octets.get_mut(2..).unwrap_or_default(), 0);
            let by = if random.chance(words.path.late) { LATE } else { Duration::ZERO };
            count += 1;
            waiting.insert((Instant::now() + words.delay + by, count), octets);
        }
    }
}
