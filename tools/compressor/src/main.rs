//! The program: see `compressor --help`.

use std::process::ExitCode;

use compressor::check::compare;
use compressor::fault::{lines, write, Fault};
use compressor::feedback::feedback;
use compressor::gap;
use compressor::generate::packets;
use compressor::load;
use compressor::pcap::{written, Capture};
use compressor::results::table;
use compressor::script::{run, Plan};
use compressor::wire::{line, serve};
use compressor::words::{order, Load, Lossy, Making, Order, Script, HELP};

fn script(words: Script) -> Result<u8, Fault> {
    let capture = Capture::of_files(&words.captures)?;
    let feedback = match &words.feedback {
        Some(file) => feedback(file, &lines(file)?, words.link.number, words.link.large)?,
        None => Vec::new(),
    };
    let Script { link, settings, others, lose, burst, damage, front, .. } = words;
    let plan = Plan { link, settings, others, lose, burst, damage, front, feedback };
    let mut done = if words.gaps { gap::run(&plan, &capture.packets) } else { run(&plan, &capture.packets) };
    let causes = [("no IP packet", capture.no_ip), ("cut off in the capture", capture.cut_off)];
    done.report.left_out.extend(causes.into_iter().filter(|cause| cause.1 > 0));
    if let Some(file) = &words.links {
        write(file, link.file().as_bytes())?;
    }
    if let Some(file) = &words.expect {
        write(file, done.expected.as_bytes())?;
    }
    write("-", done.script.as_bytes())?;
    eprint!("{}", done.report.text());
    Ok(0)
}

fn check(expected: &str, answers: &str) -> Result<u8, Fault> {
    let found = compare((expected, &lines(expected)?), (answers, &lines(answers)?))?;
    let first = found.first.as_ref().map(|first| format!("{expected}: {first}\n")).unwrap_or_default();
    let counts = format!("expected {} came {} right {}\n", found.expected, found.came, found.right);
    write("-", (first + &counts).as_bytes())?;
    Ok(u8::from(found.first.is_some()))
}

fn generate(kind: &str, file: &str, making: &Making) -> Result<u8, Fault> {
    let all = packets(kind, making.packets, making.seed).unwrap_or_default();
    write(file, &written(&all, making.framing, making.big, making.nanoseconds))?;
    Ok(0)
}

fn lossy(words: &Lossy) -> Result<u8, Fault> {
    let all = packets(&words.kind, words.packets, words.seed).unwrap_or_default();
    table(&words.plans, &all, |row| write("-", format!("{row}\n").as_bytes()))?;
    Ok(0)
}

fn make_load(words: &Load) -> Result<u8, Fault> {
    let made = load::written(&words.load);
    for (file, text) in words.files.iter().zip([made.script, made.expected, made.links]) {
        write(file, text.as_bytes())?;
    }
    Ok(0)
}

fn obey(order: Order) -> Result<u8, Fault> {
    match order {
        Order::Help => write("-", format!("{HELP}\n").as_bytes()).map(|()| 0),
        Order::Version => write("-", format!("compressor {}\n", env!("CARGO_PKG_VERSION")).as_bytes()).map(|()| 0),
        Order::Script(words) => script(*words),
        Order::Check { expected, answers } => check(&expected, &answers),
        Order::Lossy(words) => lossy(&words),
        Order::Load(words) => make_load(&words),
        Order::Serve(words) => serve(&words).map(|()| 0),
        Order::Line(words) => line(&words).map(|()| 0),
        Order::Generate { kind, file, making } => generate(&kind, &file, &making),
    }
}

fn main() -> ExitCode {
    let said: Vec<String> = std::env::args().skip(1).collect();
    match order(&said).and_then(obey) {
        Ok(status) => ExitCode::from(status),
        Err(fault) => {
            eprintln!("compressor: {fault}");
            ExitCode::from(fault.status())
        }
    }
}
