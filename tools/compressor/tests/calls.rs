//! Synthetic calls through the sender, and back through a model of the receiver.

mod model;

use compressor::flow::Link;
use compressor::generate::{packets, KINDS};
use compressor::header::Header;
use compressor::ir::Cid;
use compressor::script::{hex, octets, run, Plan, Written};
use compressor::sender::{Sender, Settings};
use model::Model;

fn settings() -> Settings {
    Settings {
        window: 4,
        repeats: 4,
        refresh_ir: 0,
        refresh_dyn: 0,
        mode: 2,
        stride: None,
        static_first: false,
        until_heard: false,
        announce_by_ir_dyn: false,
        passing: false,
        any: false,
        without: Vec::new(),
        seed: 1,
    }
}

fn plan(settings: Settings, large: bool, lose: u64) -> Plan {
    let link = Link { number: 1, large, max_cid: 15, o_mode: true };
    let burst = settings.window.min(settings.repeats) - 1;
    Plan { link, settings, others: false, lose, burst, damage: 0, front: false, feedback: Vec::new() }
}

/// All packets of the script, received in order, are what must come out.
fn comes_out(written: &Written, large: bool, kind: &str) {
    let mut model = Model::new(large);
    let mut expected = written.expected.lines();
    for (at, line) in written.script.lines().enumerate() {
        let packet = octets(line.rsplit(' ').next().unwrap()).unwrap();
        if let Some(received) = model.receive(&packet) {
            let wanted = expected.next().unwrap().rsplit(' ').next().unwrap();
            assert_eq!(hex(&received), wanted, "{kind}, line {}: {line}", at + 1);
        }
    }
    assert_eq!(expected.next(), None);
}

fn sent(kind: &str, settings: Settings, large: bool, lose: u64) -> Written {
    let written = run(&plan(settings, large, lose), &packets(kind, 250, 7).unwrap());
    comes_out(&written, large, kind);
    written
}

#[test]
fn every_kind_comes_out() {
    for kind in KINDS {
        for large in [false, true] {
            for lose in [0, 20, 90] {
                sent(kind, settings(), large, lose);
                sent(kind, Settings { any: true, ..settings() }, large, lose);
                sent(kind, Settings { passing: true, refresh_ir: 30, refresh_dyn: 7, ..settings() }, large, lose);
                sent(kind, Settings { static_first: true, announce_by_ir_dyn: true, ..settings() }, large, lose);
            }
        }
    }
}

/// With a window of one, losses of one in a row are too many, and the model sees it.
#[test]
#[should_panic]
fn losses_past_the_window_show() {
    let mut plan = plan(Settings { window: 1, repeats: 1, ..settings() }, false, 50);
    plan.burst = 20;
    comes_out(&run(&plan, &packets("jumps", 400, 7).unwrap()), false, "jumps");
}

/// Every format with every extension is sent, where any packet may be.
#[test]
fn all_formats_are_sent() {
    let any = || Settings { any: true, ..settings() };
    let reports = ["g711", "random-id", "jumps"].map(|kind| sent(kind, any(), false, 0).report);
    let mut wanted: Vec<String> = ["ir", "ir-dyn", "uo-0", "uo-1", "uo-1-ts"].map(str::to_string).to_vec();
    for format in ["uo-1-id", "uor-2", "uor-2-id", "uor-2-ts"] {
        wanted.extend(["", "+ext0", "+ext1", "+ext2", "+ext3"].map(|extension| format!("{format}{extension}")));
    }
    for name in wanted {
        assert!(reports.iter().any(|report| report.formats.contains_key(&name)), "{name}");
    }
}

/// A steady call goes in UO-0: after four IRs, three headers of which give no stride, the rest is one octet.
#[test]
fn steady_calls_are_small() {
    let report = sent("opus", settings(), false, 0).report;
    assert!(report.formats["uo-0"].0 >= 240, "{report:?}");
    assert_eq!(report.formats["uo-0"].1, report.formats["uo-0"].0);
    let report = sent("swapped-id", settings(), false, 0).report;
    assert!(report.formats["uo-0"].0 >= 215, "{report:?}");
    // Two octets of a random Identification more.
    let report = sent("random-id", settings(), false, 0).report;
    assert_eq!(report.formats["uo-0"].1, report.formats["uo-0"].0 * 3);
}

fn worked(identification: u16, m: bool, sn: u16, ts: u32) -> (Header, Vec<u8>) {
    let text = "45000029000100004011 66c10a0000010a0000021388138a001500008000 0001000000a000000001ab";
    let packet = octets(&text.replace(' ', "")).unwrap();
    let (header, _) = Header::read(&packet).unwrap();
    (Header { identification, m, sn, ts, ..header }, vec![0xaa + sn as u8])
}

/// The worked call: the IR, the UO-0 after it, and the jump.
#[test]
fn worked_call() {
    let once = Settings { repeats: 1, stride: Some(160), ..settings() };
    let mut sender = Sender::new(Cid::Small(0), once.into());
    let mut send = |(header, payload): (Header, Vec<u8>)| hex(&sender.send(&header, &payload)[0].octets);
    let ir = "fd012b40110a0000010a0000021388138a00000001004000012000000090000001000000a0000980a0ab";
    assert_eq!(send(worked(1, false, 1, 160)), ir);
    assert_eq!(send(worked(2, false, 2, 320)), "10ac");
}

/// The scaled value 20 is within five bits, so that a UO-1-TS means the jump too and is smaller than the worked packet.
#[test]
fn worked_jump() {
    let without = vec!["uo-1-ts".to_string()];
    let once = Settings { window: 1, repeats: 1, stride: Some(160), without, ..settings() };
    let mut sender = Sender::new(Cid::Small(0), once.into());
    let mut send = |(header, payload): (Header, Vec<u8>)| hex(&sender.send(&header, &payload)[0].octets);
    send(worked(1, false, 1, 160));
    send(worked(2, false, 2, 320));
    assert_eq!(send(worked(3, true, 3, 3200)), "d4c33ead");
}

/// What the decompressor says: an ACK makes headers small at once, a NACK brings an IR-DYN, a STATIC-NACK an IR.
#[test]
fn feedback_is_heard() {
    let mut sender = Sender::new(Cid::Small(0), Settings { stride: Some(160), ..settings() }.into());
    let mut at = 0;
    let mut send = |sender: &mut Sender| {
        at += 1;
        let (header, payload) = worked(at, false, at, 160 * u32::from(at));
        sender.send(&header, &payload).remove(0)
    };
    assert_eq!(send(&mut sender).name, "ir");
    let second = send(&mut sender);
    assert_eq!(second.name, "ir");
    sender.acknowledged(second.serial);
    assert_eq!(send(&mut sender).name, "uo-0");
    sender.asked(false);
    assert_eq!(send(&mut sender).name, "ir-dyn");
    let again = send(&mut sender);
    assert_eq!(again.name, "ir-dyn");
    sender.acknowledged(again.serial);
    assert_eq!(send(&mut sender).name, "uo-0");
    sender.asked(true);
    assert_eq!(send(&mut sender).name, "ir");
}

/// The second call has an identifier of its own, and a new flow takes that of the longest silent one.
#[test]
fn identifiers() {
    let mut two = plan(settings(), false, 0);
    let calls = packets("two", 100, 1).unwrap();
    let written = run(&two, &calls);
    assert!(written.expected.lines().any(|line| line.starts_with("1 1 ")));
    two.link.max_cid = 0;
    let written = run(&two, &calls);
    assert!(written.expected.lines().all(|line| line.starts_with("1 0 ")));
    comes_out(&written, false, "two");
}

/// A capture with wrong octets is refused or read, and what is read is sent and comes out.
#[test]
fn damaged_captures() {
    use compressor::pcap::{written, Capture, Framing};
    let mut random = compressor::random::Random::new(3);
    let good = written(&packets("mixed", 30, 1).unwrap(), Framing::Vlan, false, true);
    for _ in 0..2000 {
        let mut octets = good.clone();
        for _ in 0..1 + random.below(8) {
            let at = random.below(octets.len() as u64) as usize;
            octets[at] = random.draw() as u8;
        }
        octets.truncate(octets.len() - random.below(20) as usize);
        if let Ok(capture) = Capture::of(&octets) {
            comes_out(&run(&plan(settings(), false, 0), &capture.packets), false, "damaged");
        }
    }
}

/// TOS for one packet in the worked call: after it the reference has the old one, and after a second change the new one.
#[test]
fn worked_passing_change() {
    let settings = Settings { window: 1, repeats: 1, stride: Some(160), passing: true, ..settings() };
    let mut sender = Sender::new(Cid::Small(0), settings.into());
    let mut send = |tos: u8, sn: u16| {
        let (header, payload) = worked(sn, false, sn, 160 * u32::from(sn));
        sender.send(&Header { tos, ..header }, &payload).remove(0)
    };
    assert_eq!(send(0, 1).name, "ir");
    assert_eq!(hex(&send(0xb8, 2).octets), "8095c284b8ac");
    assert_eq!(hex(&send(0, 3).octets), "1cad");
    let names = [4, 5, 6].map(|sn| send(0xb8, sn).name);
    assert_eq!(names, ["uo-1-id+ext3", "uor-2-id+ext3", "uo-0"]);
}

/// From IR to IR 30 packets, from an IR or IR-DYN to the next IR-DYN 7.
#[test]
fn refreshes() {
    let settings = Settings { refresh_ir: 30, refresh_dyn: 7, stride: Some(160), ..settings() };
    let mut sender = Sender::new(Cid::Small(0), settings.into());
    let names: Vec<(u16, String)> = (1..=48)
        .map(|sn| {
            let (header, payload) = worked(sn, false, sn, 160 * u32::from(sn));
            (sn, sender.send(&header, &payload).remove(0).name)
        })
        .collect();
    let at = |wanted: &str| names.iter().filter(|name| name.1 == wanted).map(|name| name.0).collect::<Vec<_>>();
    assert_eq!(at("ir"), [1, 2, 3, 4, 34]);
    assert_eq!(at("ir-dyn"), [11, 18, 25, 32, 41, 48]);
    assert_eq!(at("uo-0").len(), 48 - 11);
}
