//! Datagrams per second through `rohcd serve` and `rohc-gateway` on loopback, each compared with a plain echo with the
//! same socket calls: one that blocks in its receives, and one that waits by epoll and then receives all there are.
//!
//!     serve ROHCD GATEWAY COUNT ROUNDS
//!
//! Each datagram is a Normal packet of profile 0x0000 with 40 octets, so a turn is one receive, one reading of the
//! clock and one send. At most 1 datagram is on its way, and then at most 64, so none is lost. All are timed in turn,
//! from the first datagram to the last, and the best of each is printed, with the ratios of the best.

use std::env;
use std::fs;
use std::io::{Error, ErrorKind, Result};
use std::net::{Ipv4Addr, UdpSocket};
use std::os::fd::AsRawFd;
use std::path::PathBuf;
use std::process::{Child, Command, Stdio};
use std::thread::sleep;
use std::time::{Duration, Instant};

/// How many datagrams are on their way at most.
const WINDOWS: [u32; 2] = [1, 64];

const LINK: &str = "version = 1\n[[link]]\nnumber = 1\ncid = \"small\"\nmax_cid = 15\nmode = \"O\"\nk1 = 2\nn1 = 3\n\
    k2 = 2\nn2 = 3\npacket_ms = 20\nstatic_nack_ms = 1000\n";

/// The plain echo: each datagram at a port is sent on to another port, without its first two octets.
fn echo(port: u16, count: u32, deliver: u16) -> Result<()> {
    let socket = UdpSocket::bind((Ipv4Addr::LOCALHOST, port))?;
    let start = Instant::now();
    let mut buffer = vec![0; 65_537];
    for _ in 0..count {
        let (size, _) = socket.recv_from(&mut buffer)?;
        std::hint::black_box(start.elapsed().as_millis());
        socket.send_to(&buffer[2..size], (Ipv4Addr::LOCALHOST, deliver))?;
    }
    Ok(())
}

/// What epoll tells of a socket.
#[repr(C, packed)]
#[derive(Clone, Copy)]
struct Event {
    events: u32,
    data: u64,
}

/// The events that are asked for: octets to read, once each time some come.
const INPUT: u32 = 0x8000_0001;
const ADD: i32 = 1;

unsafe extern "C" {
    fn epoll_create1(flags: i32) -> i32;
    fn epoll_ctl(epoll: i32, operation: i32, file: i32, event: *mut Event) -> i32;
    fn epoll_wait(epoll: i32, events: *mut Event, most: i32, milliseconds: i32) -> i32;
}

/// What a call of the system returned, or its error.
fn called(answer: i32) -> Result<i32> {
    if answer < 0 { Err(Error::last_os_error()) } else { Ok(answer) }
}

/// The plain echo that waits by epoll, as a program with several sockets does.
fn polled_echo(port: u16, count: u32, deliver: u16) -> Result<()> {
    let socket = UdpSocket::bind((Ipv4Addr::LOCALHOST, port))?;
    socket.set_nonblocking(true)?;
    let start = Instant::now();
    let mut buffer = vec![0; 65_537];
    let mut event = Event { events: INPUT, data: 0 };
    // SAFETY: the event outlives each call, and there is room for one.
    let epoll = called(unsafe { epoll_create1(0) })?;
    called(unsafe { epoll_ctl(epoll, ADD, socket.as_raw_fd(), &raw mut event) })?;
    let mut left = count;
    while left > 0 {
        called(unsafe { epoll_wait(epoll, &raw mut event, 1, -1) })?;
        loop {
            match socket.recv_from(&mut buffer) {
                Ok((size, _)) => {
                    std::hint::black_box(start.elapsed().as_millis());
                    socket.send_to(&buffer[2..size], (Ipv4Addr::LOCALHOST, deliver))?;
                    left -= 1;
                }
                Err(error) if error.kind() == ErrorKind::WouldBlock => break,
                Err(error) => return Err(error),
            }
        }
    }
    Ok(())
}

/// Waits until a port is bound.
fn wait_until_bound(port: u16) -> Result<()> {
    let name = format!("0100007F:{port:04X} ");
    while !fs::read_to_string("/proc/net/udp")?.contains(&name) {
        sleep(Duration::from_millis(5));
    }
    Ok(())
}

/// Sends `count` datagrams to a server at this port, of which at most `window` are on their way, and returns how many per
/// second come back. The server ends after them by itself, or is killed if it is endless.
fn rate(port: u16, count: u32, window: u32, deliver: &UdpSocket, server: &mut Child, endless: bool) -> Result<f64> {
    wait_until_bound(port)?;
    let sender = UdpSocket::bind((Ipv4Addr::LOCALHOST, 0))?;
    let mut buffer = [0; 64];
    let mut ir = b"\x00\x01\xfc\x00\xb7".to_vec();
    ir.resize(46, 0x45);
    sender.send_to(&ir, (Ipv4Addr::LOCALHOST, port))?;
    deliver.recv_from(&mut buffer)?;
    let mut normal = b"\x00\x01".to_vec();
    normal.resize(42, 0x45);
    let start = Instant::now();
    for place in 0..count {
        if place >= window {
            deliver.recv_from(&mut buffer)?;
        }
        sender.send_to(&normal, (Ipv4Addr::LOCALHOST, port))?;
    }
    for _ in 0..window.min(count) {
        deliver.recv_from(&mut buffer)?;
    }
    let taken = start.elapsed().as_secs_f64();
    if endless {
        server.kill()?;
    }
    server.wait()?;
    Ok(f64::from(count) / taken)
}

fn free_port() -> Result<u16> {
    Ok(UdpSocket::bind((Ipv4Addr::LOCALHOST, 0))?.local_addr()?.port())
}

/// The best rates of all, with at most `window` datagrams on their way.
struct Best {
    served: f64,
    passed: f64,
    echoed: f64,
    polled: f64,
}

/// The programs, and where they deliver.
struct Bench {
    program: String,
    gateway: String,
    links: PathBuf,
    deliver: UdpSocket,
    count: u32,
}

impl Bench {
    /// The rate of an echo, which this program is too: `word` says which.
    fn echo(&self, word: &str, window: u32) -> Result<f64> {
        let port = free_port()?;
        let all = (self.count + 1).to_string();
        let deliver = self.deliver.local_addr()?.port().to_string();
        let mut server = Command::new(env::current_exe()?).args([word, &port.to_string(), &all, &deliver]).spawn()?;
        rate(port, self.count, window, &self.deliver, &mut server, false)
    }

    /// The rate of `rohcd serve`.
    fn serve(&self, window: u32) -> Result<f64> {
        let port = free_port()?;
        let mut server = Command::new(&self.program)
            .args(["serve", "--links"])
            .arg(&self.links)
            .args(["--port", &port.to_string(), "--count", &(self.count + 1).to_string()])
            .stdout(Stdio::null())
            .spawn()?;
        rate(port, self.count, window, &self.deliver, &mut server, false)
    }

    /// The rate of the gateway.
    fn pass(&self, window: u32) -> Result<f64> {
        let port = free_port()?;
        let file = self.links.with_extension("gateway");
        fs::write(&file, format!("links = {:?}\nport = {port}\n", self.links))?;
        let mut server = Command::new(&self.gateway).arg("run").arg(&file).stderr(Stdio::null()).spawn()?;
        let found = rate(port, self.count, window, &self.deliver, &mut server, true);
        fs::remove_file(&file)?;
        found
    }

    /// The best of so many rounds.
    fn best(&self, rounds: u32, window: u32) -> Result<Best> {
        let mut best = Best { served: 0.0, passed: 0.0, echoed: 0.0, polled: 0.0 };
        for _ in 0..rounds {
            best.served = best.served.max(self.serve(window)?);
            best.echoed = best.echoed.max(self.echo("echo", window)?);
            best.passed = best.passed.max(self.pass(window)?);
            best.polled = best.polled.max(self.echo("polled", window)?);
        }
        Ok(best)
    }
}

fn main() -> Result<()> {
    let words: Vec<String> = env::args().collect();
    let number = |word: &str| word.parse::<u32>().expect("a number");
    match words[1].as_str() {
        "echo" => return echo(number(&words[2]) as u16, number(&words[3]), number(&words[4]) as u16),
        "polled" => return polled_echo(number(&words[2]) as u16, number(&words[3]), number(&words[4]) as u16),
        _ => {}
    }
    let deliver = UdpSocket::bind((Ipv4Addr::LOCALHOST, 0))?;
    deliver.set_read_timeout(Some(Duration::from_secs(5)))?;
    let deliver_port = deliver.local_addr()?.port();
    let other = UdpSocket::bind((Ipv4Addr::LOCALHOST, 0))?;
    let other_port = other.local_addr()?.port();
    let links = env::temp_dir().join(format!("bench-serve-{deliver_port}.toml"));
    let ports = format!("deliver_port = {deliver_port}\nfeedback_port = {other_port}\nrelay_port = {other_port}\n");
    fs::write(&links, format!("{LINK}{ports}"))?;
    let bench =
        Bench { program: words[1].clone(), gateway: words[2].clone(), links, deliver, count: number(&words[3]) };
    for window in WINDOWS {
        let Best { served, passed, echoed, polled } = bench.best(number(&words[4]), window)?;
        println!(
            "{window:2} on the way, datagrams a second:  rohcd serve {served:.0}  echo {echoed:.0}  time {:.2}   rohc-gateway \
             {passed:.0}  echo by epoll {polled:.0}  time {:.2}",
            echoed / served,
            polled / passed
        );
    }
    fs::remove_file(&bench.links)
}
