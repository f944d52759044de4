//! The command line.

use std::net::SocketAddr;
use std::time::Duration;

use crate::fault::Fault;
use crate::flow::Link;
use crate::formats::names;
use crate::generate::KINDS;
use crate::load;
use crate::lossy::{Delays, Path, Plan};
use crate::pcap::Framing;
use crate::sender::Settings;
use crate::wire::{Line, Serve};

pub const HELP: &str = "\
usage: compressor script [OPTION..] CAPTURE..
           writes a script for `rohcd replay` on standard output, and counts on standard error
       compressor check EXPECT ANSWERS
           compares the packets in rohcd's answers with those that must come out
       compressor generate KIND FILE [--packets N] [--seed N] [--framing ethernet|vlan|cooked|raw] [--big] [--nano]
           writes a capture of a kind
       compressor lossy PROGRAM [--packets N] [--seed N] [--kind KIND] [--delay MS] [--feedback-delay MS]
           sends a call to a rohcd over a link that loses and damages, both ways, and writes a table of what came out
       compressor load ORDER [--links N] [--streams N] [--packets N] [--seed N] --files SCRIPT,EXPECT,LINKS
           writes an honest load for benchmarks, in the order rounds, scattered or coming: a script, the packets that
           must come out, and a links file
       compressor serve --listen ADDRESS --send ADDRESS --hear ADDRESS [OPTION..]
           compresses IP packets that come as datagrams, sends them with the number of the link first, and acts on the
           feedback that comes as datagrams, until it is ended
       compressor line --listen ADDRESS --send ADDRESS [--lose PERCENT] [--late PERCENT] [--twice PERCENT]
                  [--errors N] [--delay MS] [--seed N]
           passes datagrams on as a bad line does, until it is ended: it loses them in bursts, delays all by --delay and
           some by 50 milliseconds more, sends some twice, and damages N of a million bits
       compressor --help | --version

options of script:
  --expect FILE        writes the packets that must come out
  --links FILE         writes a links file
  --feedback FILE      reads the answers of an earlier run, and acts on their feedback (O mode)
  --link N             link number (1)
  --cid small|large    identifiers (small)
  --max-cid N          greatest identifier (15 or 16383)
  --mode U|O           mode (O)
  --w N                references of W-LSB, 1 to 64 (4)
  --optimistic N       how often a change is sent, 1 to 64 (3)
  --refresh-ir N       packets from IR to IR, 0 for none (U: 500, O: 0)
  --refresh-dyn N      packets from IR-DYN to IR-DYN, 0 for none (U: 100, O: 0)
  --stride N           TS stride before one is learned
  --others send|leave  what isn't RTP goes by profile 0x0000, or is left out (send)
  --static-first       begins with IRs with D=0 and IR-DYNs
  --announce ext3|ir-dyn   how changes are sent (ext3)
  --passing            sends a change first as one that passes, in a UO-1-ID
  --pick smallest|any  any packet that means the header, not the smallest alone (smallest)
  --without NAME,..    packets that aren't sent, by their names in the counts
  --lose PERCENT       loses packets, 0 to 100 (0)
  --damage PERCENT     damages packets with a check of 7 or 8 bits, 0 to 100 (0)
  --gaps               one steady call (opus) with long losses, and what repair makes of them
  --front              padding and feedback for the other direction before headers
  --burst N            how many in a row at most, below --w and --optimistic (the greatest)
  --seed N             of what is lost and picked (1)

serve has the options of script from --link to --stride and from --static-first to --announce.

lossy sends 10000 packets of g729 in U mode and in O mode for each row, with the sender as script has it, and an IR in
O mode until one is acknowledged. The delays are 40 and 60 milliseconds. The same seed gives the same table.

load has 10000 packets of 1 call on each of 1 link. In rounds the calls take turns. In the orders scattered and coming
nothing is in order: calls begin and go on at random, and CIDs and numbers of links are random. In the order coming calls
end, and others begin with CIDs that are free.";

/// What is to be done.
pub enum Order {
    Help,
    Version,
    Script(Box<Script>),
    Check { expected: String, answers: String },
    Generate { kind: String, file: String, making: Making },
    Lossy(Box<Lossy>),
    Load(Box<Load>),
    Serve(Box<Serve>),
    Line(Box<Line>),
}

/// The words of `load`.
pub struct Load {
    pub load: load::Load,
    /// The files for its script, the packets that must come out, and its links file.
    pub files: [String; 3],
}

/// The words of `lossy`.
pub struct Lossy {
    pub kind: String,
    pub packets: u64,
    pub seed: u64,
    /// In U mode and in O mode.
    pub plans: [Plan; 2],
}

/// The words of `script`.
pub struct Script {
    pub captures: Vec<String>,
    pub expect: Option<String>,
    pub links: Option<String>,
    pub feedback: Option<String>,
    pub link: Link,
    pub settings: Settings,
    pub others: bool,
    pub lose: u64,
    pub burst: usize,
    pub damage: u64,
    pub front: bool,
    pub gaps: bool,
}

/// The options of `generate`.
pub struct Making {
    pub packets: u64,
    pub seed: u64,
    pub framing: Framing,
    pub big: bool,
    pub nanoseconds: bool,
}

/// The options of a command, taken from its words, and the words that are none.
struct Options {
    given: Vec<(String, String)>,
    rest: Vec<String>,
}

fn words<T>(said: String) -> Result<T, Fault> {
    Err(Fault::Words(said))
}

impl Options {
    fn of(said: &[String], valued: &[&str], flags: &[&str]) -> Result<Options, Fault> {
        let mut options = Options { given: Vec::new(), rest: Vec::new() };
        let mut said = said.iter();
        while let Some(word) = said.next() {
            if options.given.iter().any(|(name, _)| name == word) {
                return words(format!("{word} twice"));
            } else if flags.contains(&&word[..]) {
                options.given.push((word.clone(), String::new()));
            } else if valued.contains(&&word[..]) {
                let Some(value) = said.next() else {
                    return words(format!("{word} without a value"));
                };
                options.given.push((word.clone(), value.clone()));
            } else if word.starts_with('-') {
                return words(format!("unknown option {word}"));
            } else {
                options.rest.push(word.clone());
            }
        }
        Ok(options)
    }

    fn text(&self, name: &str) -> Option<String> {
        self.given.iter().find(|(given, _)| given == name).map(|(_, value)| value.clone())
    }

    fn flag(&self, name: &str) -> bool {
        self.text(name).is_some()
    }

    fn number(&self, name: &str, least: u64, most: u64, absent: u64) -> Result<u64, Fault> {
        let Some(text) = self.text(name) else {
            return Ok(absent);
        };
        let number = text.bytes().all(|digit| digit.is_ascii_digit()).then(|| text.parse().ok()).flatten();
        match number {
            Some(number) if (least..=most).contains(&number) => Ok(number),
            _ => words(format!("{name} {text} is no number from {least} to {most}")),
        }
    }

    /// An address with a port, which must be given.
    fn address(&self, name: &str) -> Result<SocketAddr, Fault> {
        let text = self.text(name).unwrap_or_default();
        text.parse().or_else(|_| words(format!("{name} {text} is no address with a port, as 127.0.0.1:5000")))
    }

    /// A share that is given in percent.
    fn share(&self, name: &str) -> Result<f64, Fault> {
        Ok(self.number(name, 0, 70, 0)? as f64 / 100.0)
    }

    /// The place of the value among those that may be; 0 if the option isn't there.
    fn choice(&self, name: &str, all: &[&str]) -> Result<usize, Fault> {
        let Some(text) = self.text(name) else {
            return Ok(0);
        };
        match all.iter().position(|one| *one == text) {
            Some(place) => Ok(place),
            None => words(format!("{name} {text} is none of {}", all.join(", "))),
        }
    }
}

const VALUED: [&str; 18] = [
    "--expect",
    "--links",
    "--feedback",
    "--link",
    "--cid",
    "--max-cid",
    "--mode",
    "--w",
    "--optimistic",
    "--refresh-ir",
    "--refresh-dyn",
    "--stride",
    "--others",
    "--announce",
    "--pick",
    "--without",
    "--lose",
    "--seed",
];

fn link(options: &Options) -> Result<Link, Fault> {
    let large = options.choice("--cid", &["small", "large"])? == 1;
    let most = if large { 16_383 } else { 15 };
    let max_cid = options.number("--max-cid", 0, most, most)? as u16;
    let number = options.number("--link", 0, 65_535, 1)? as u16;
    Ok(Link { number, large, max_cid, o_mode: options.choice("--mode", &["O", "U"])? == 0 })
}

/// The names of packets that aren't sent.
fn without(options: &Options) -> Result<Vec<String>, Fault> {
    let Some(text) = options.text("--without") else {
        return Ok(Vec::new());
    };
    let (given, all): (Vec<String>, _) = (text.split(',').map(str::to_string).collect(), names());
    match given.iter().find(|name| !all.contains(name)) {
        Some(name) => words(format!("--without {name} is none of {}", all.join(", "))),
        None => Ok(given),
    }
}

fn settings(options: &Options, o_mode: bool) -> Result<Settings, Fault> {
    let (ir, dynamic) = if o_mode { (0, 0) } else { (500, 100) };
    let stride = options.number("--stride", 1, (1 << 29) - 1, 0)? as u32;
    Ok(Settings {
        window: options.number("--w", 1, 64, 4)? as usize,
        repeats: options.number("--optimistic", 1, 64, 3)? as usize,
        refresh_ir: options.number("--refresh-ir", 0, u64::MAX, ir)?,
        refresh_dyn: options.number("--refresh-dyn", 0, u64::MAX, dynamic)?,
        mode: if o_mode { 2 } else { 1 },
        stride: (stride > 0).then_some(stride),
        static_first: options.flag("--static-first"),
        until_heard: false,
        announce_by_ir_dyn: options.choice("--announce", &["ext3", "ir-dyn"])? == 1,
        passing: options.flag("--passing"),
        any: options.choice("--pick", &["smallest", "any"])? == 1,
        without: without(options)?,
        seed: options.number("--seed", 0, u64::MAX, 1)?,
    })
}

fn script(said: &[String]) -> Result<Order, Fault> {
    let valued = [&VALUED[..], &["--burst", "--damage"]].concat();
    let options = Options::of(said, &valued, &["--static-first", "--passing", "--front", "--gaps"])?;
    let link = link(&options)?;
    let settings = settings(&options, link.o_mode)?;
    if options.rest.is_empty() {
        return words("no capture".to_string());
    }
    // One of the states that the sender reckons with must have arrived.
    let most = settings.window.min(settings.repeats) as u64 - 1;
    Ok(Order::Script(Box::new(Script {
        expect: options.text("--expect"),
        links: options.text("--links"),
        feedback: options.text("--feedback"),
        others: options.choice("--others", &["send", "leave"])? == 0,
        lose: options.number("--lose", 0, 100, 0)?,
        front: options.flag("--front"),
        gaps: options.flag("--gaps"),
        damage: options.number("--damage", 0, 100, 0)?,
        burst: options.number("--burst", 0, most, most)? as usize,
        captures: options.rest,
        link,
        settings,
    })))
}

fn generate(said: &[String]) -> Result<Order, Fault> {
    let options = Options::of(said, &["--packets", "--seed", "--framing"], &["--big", "--nano"])?;
    let [kind, file] = &options.rest[..] else {
        return words("generate wants a kind and a file".to_string());
    };
    if !KINDS.contains(&&kind[..]) {
        return words(format!("{kind} is none of {}", KINDS.join(", ")));
    }
    let all = [Framing::Ethernet, Framing::Vlan, Framing::Cooked, Framing::Raw];
    let making = Making {
        packets: options.number("--packets", 0, 1_000_000, 1000)?,
        seed: options.number("--seed", 0, u64::MAX, 1)?,
        framing: all[options.choice("--framing", &["ethernet", "vlan", "cooked", "raw"])?],
        big: options.flag("--big"),
        nanoseconds: options.flag("--nano"),
    };
    Ok(Order::Generate { kind: kind.clone(), file: file.clone(), making })
}

fn lossy(said: &[String]) -> Result<Order, Fault> {
    let options = Options::of(said, &["--packets", "--seed", "--kind", "--delay", "--feedback-delay"], &[])?;
    let [program] = &options.rest[..] else {
        return words("lossy wants a program".to_string());
    };
    let milliseconds = |name, absent| options.number(name, 0, 10_000, absent);
    let delays = Delays { forth: milliseconds("--delay", 40)?, back: milliseconds("--feedback-delay", 60)? };
    let plan = |o_mode| {
        let link = Link { number: 1, large: false, max_cid: 15, o_mode };
        let settings = Settings { until_heard: o_mode, ..settings(&options, o_mode)? };
        Ok(Plan { program: program.clone(), link, settings, delays })
    };
    Ok(Order::Lossy(Box::new(Lossy {
        kind: match options.text("--kind") {
            None => "g729".to_string(),
            Some(_) => KINDS[options.choice("--kind", &KINDS)?].to_string(),
        },
        packets: options.number("--packets", 0, 1_000_000, 10_000)?,
        seed: options.number("--seed", 0, u64::MAX, 1)?,
        plans: [plan(false)?, plan(true)?],
    })))
}

fn load(said: &[String]) -> Result<Order, Fault> {
    let options = Options::of(said, &["--links", "--streams", "--packets", "--seed", "--files"], &[])?;
    let orders = [load::Order::Rounds, load::Order::Scattered, load::Order::Coming];
    let place = options.rest.first().and_then(|word| load::ORDERS.iter().position(|one| one == word));
    let (Some(place), 1) = (place, options.rest.len()) else {
        return words(format!("load wants one of {}", load::ORDERS.join(", ")));
    };
    let files: Vec<String> = options.text("--files").unwrap_or_default().split(',').map(str::to_string).collect();
    let Ok(files) = <[String; 3]>::try_from(files) else {
        return words("--files wants three files".to_string());
    };
    let load = load::Load {
        order: orders[place],
        links: options.number("--links", 1, 256, 1)? as u16,
        streams: options.number("--streams", 1, 16_384, 1)? as u16,
        packets: options.number("--packets", 0, 10_000_000, 10_000)?,
        seed: options.number("--seed", 0, u64::MAX, 1)?,
    };
    Ok(Order::Load(Box::new(Load { load, files })))
}

fn serve(said: &[String]) -> Result<Order, Fault> {
    let valued = [&VALUED[..], &["--listen", "--send", "--hear"]].concat();
    let options = Options::of(said, &valued, &["--static-first", "--passing"])?;
    let link = link(&options)?;
    let settings = Settings { until_heard: link.o_mode, ..settings(&options, link.o_mode)? };
    if let Some(word) = options.rest.first() {
        return words(format!("serve takes no {word}"));
    }
    Ok(Order::Serve(Box::new(Serve {
        listen: options.address("--listen")?,
        send: options.address("--send")?,
        hear: options.address("--hear")?,
        link,
        settings,
    })))
}

fn line(said: &[String]) -> Result<Order, Fault> {
    let valued = ["--listen", "--send", "--lose", "--late", "--twice", "--errors", "--delay", "--seed"];
    let options = Options::of(said, &valued, &[])?;
    if let Some(word) = options.rest.first() {
        return words(format!("line takes no {word}"));
    }
    let path = Path {
        loss: options.share("--lose")?,
        errors: options.number("--errors", 0, 100_000, 0)? as f64 / 1_000_000.0,
        late: options.share("--late")?,
        twice: options.share("--twice")?,
    };
    Ok(Order::Line(Box::new(Line {
        listen: options.address("--listen")?,
        send: options.address("--send")?,
        path,
        delay: Duration::from_millis(options.number("--delay", 0, 10_000, 0)?),
        seed: options.number("--seed", 0, u64::MAX, 1)?,
    })))
}

/// What the words after the program's name order.
pub fn order(said: &[String]) -> Result<Order, Fault> {
    let Some((first, rest)) = said.split_first() else {
        return words("no command; see --help".to_string());
    };
    match (&first[..], rest) {
        ("--help", []) => Ok(Order::Help),
        ("--version", []) => Ok(Order::Version),
        ("script", _) => script(rest),
        ("generate", _) => generate(rest),
        ("lossy", _) => lossy(rest),
        ("load", _) => load(rest),
        ("serve", _) => serve(rest),
        ("line", _) => line(rest),
        ("check", [expected, answers]) => Ok(Order::Check { expected: expected.clone(), answers: answers.clone() }),
        ("check", _) => words("check wants two files".to_string()),
        _ => words(format!("unknown command {first}; see --help")),
    }
}

#[cfg(test)]
mod tests {
    use super::*;

    fn fault(text: &str) -> String {
        let said: Vec<String> = text.split(' ').filter(|word| !word.is_empty()).map(str::to_string).collect();
        order(&said).err().map_or("none".to_string(), |fault| fault.to_string())
    }

    #[test]
    fn good_words() {
        let all = [
            "--help",
            "--version",
            "script a b --w 8 --cid large",
            "check a b",
            "lossy a",
            "load coming --files a,b,c",
            "serve --listen 127.0.0.1:1 --send 10.0.0.1:2 --hear 127.0.0.1:3 --link 4",
            "line --listen 127.0.0.1:1 --send 127.0.0.1:2 --lose 5 --errors 10",
        ];
        for text in all {
            assert_eq!(fault(text), "none", "{text}");
        }
    }

    #[test]
    fn bad_words() {
        let all = [
            ("", "no command; see --help"),
            ("go", "unknown command go; see --help"),
            ("script", "no capture"),
            ("script --w", "--w without a value"),
            ("script --w 0 a", "--w 0 is no number from 1 to 64"),
            ("script --w +5 a", "--w +5 is no number from 1 to 64"),
            ("script --w 5 --w 5 a", "--w twice"),
            ("script --burst 3 a", "--burst 3 is no number from 0 to 2"),
            ("script --max-cid 16 a", "--max-cid 16 is no number from 0 to 15"),
            ("script --mode R a", "--mode R is none of O, U"),
            ("script --fast a", "unknown option --fast"),
            ("check a", "check wants two files"),
            ("generate g711", "generate wants a kind and a file"),
            ("lossy", "lossy wants a program"),
            ("load", "load wants one of rounds, scattered, coming"),
            ("load rounds --files a,b", "--files wants three files"),
            ("lossy a --delay 10001", "--delay 10001 is no number from 0 to 10000"),
            ("serve --listen 127.0.0.1", "--listen 127.0.0.1 is no address with a port, as 127.0.0.1:5000"),
            ("line --lose 71", "--lose 71 is no number from 0 to 70"),
        ];
        for (text, said) in all {
            assert_eq!(fault(text), format!("command line: {said}"));
        }
        assert!(fault("script a --without uo-9").starts_with("command line: --without uo-9 is none of uo-0, uo-1, "));
        assert!(fault("generate tune a").starts_with("command line: tune is none of g711, g729, opus"));
    }
}
