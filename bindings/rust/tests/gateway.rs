//! The worked examples of docs/EXAMPLES.md through this layer, and its own errors.

use polorowan::{Counts, Gateway, Link, NoLink, Outcome, Range, RestoreError, SavedError, SetupError};
use polorowan::{SetupFault, State, Word};
use std::fmt::Write as _;
use std::path::{Path, PathBuf};

fn hex(octets: &[u8]) -> String {
    if octets.is_empty() {
        return "-".into();
    }
    octets.iter().fold(String::new(), |mut text, octet| {
        write!(text, "{octet:02x}").expect("a string takes all");
        text
    })
}

fn octets(hex: &str) -> Vec<u8> {
    let digits = hex.trim_matches('-');
    (0..digits.len() / 2).map(|at| u8::from_str_radix(&digits[2 * at..2 * at + 2], 16).expect("hexadecimal")).collect()
}

/// The lines that `rohcd replay` writes for a script of good lines.
fn replay(gateway: &mut Gateway, script: &str) -> String {
    let mut text = String::new();
    for line in script.lines() {
        let words: Vec<&str> = line.split(' ').collect();
        match words[..] {
            ["reset", link] => {
                if gateway.reset(link.parse().expect("a number")) == Err(NoLink) {
                    writeln!(text, "{link} - refused NoLink").expect("a string takes all");
                }
            }
            ["arrive", link, moment, packet] => {
                let number = link.parse().expect("a number");
                let answer = gateway.arrive(number, moment.parse().expect("a number"), &octets(packet));
                lines_of(&mut text, link, &answer).expect("a string takes all");
            }
            _ => panic!("{line}"),
        }
    }
    text
}

fn lines_of(text: &mut String, link: &str, answer: &polorowan::Answer<'_>) -> std::fmt::Result {
    for element in answer.relayed() {
        writeln!(text, "{link} - relay {}", hex(element))?;
    }
    let cid = match answer.outcome {
        Outcome::Delivered { cid } | Outcome::Stored { cid } | Outcome::Refused { cid: Some(cid), .. } => {
            cid.to_string()
        }
        Outcome::OnlyFeedback | Outcome::Refused { cid: None, .. } => "-".into(),
    };
    if let Some(packet) = answer.packet {
        writeln!(text, "{link} {cid} ip {}", hex(packet))?;
    }
    if matches!(answer.outcome, Outcome::Stored { .. }) {
        writeln!(text, "{link} {cid} stored")?;
    }
    if let Some(feedback) = answer.feedback {
        writeln!(text, "{link} {cid} feedback {}", hex(feedback))?;
    }
    if let Outcome::Refused { refusal, .. } = answer.outcome {
        writeln!(text, "{link} {cid} refused {refusal}")?;
    }
    Ok(())
}

fn worked() -> PathBuf {
    Path::new(env!("CARGO_MANIFEST_DIR")).join("../../examples/worked")
}

fn is_good(script: &str) -> bool {
    script.lines().all(|line| {
        let words: Vec<&str> = line.split(' ').collect();
        let is_link = |word: &str| word.parse::<u16>().is_ok_and(|number| number.to_string() == word);
        match words[..] {
            ["reset", link] => is_link(link),
            ["arrive", link, moment, packet] => {
                is_link(link)
                    && moment.parse::<u64>().is_ok()
                    && (packet == "-" || packet.len() % 2 == 0)
                    && packet.bytes().all(|digit| b"-0123456789abcdef".contains(&digit))
            }
            _ => false,
        }
    })
}

/// The examples of the first links file: link 1 in O mode with small CIDs, and link 2 with large ones.
fn links() -> Vec<Link> {
    vec![Link::new(1), Link { max_cid: 16_383, large: true, ..Link::new(2) }]
}

#[test]
fn a_plain_call() {
    let folder = worked();
    let script = std::fs::read_to_string(folder.join("plain-call.script")).expect("an example");
    let wanted = std::fs::read_to_string(folder.join("plain-call.answers")).expect("its answers");
    assert!(is_good(&script));
    assert_eq!(replay(&mut Gateway::new(&links()).expect("good links"), &script), wanted);
}

#[test]
fn a_run_that_is_cut() {
    let mut gateway = Gateway::new(&links()).expect("good links");
    gateway.arrive(1, 0, &octets("fc00b745aa"));
    let saved = gateway.save(5).expect("memory");
    let (mut other, told) = Gateway::restored(&links(), &saved).expect("good octets");
    assert_eq!((told.moment, told.links, told.contexts), (5, 2, 1));
    let contexts: Vec<_> = other.contexts(1).map(|context| (context.cid, context.profile, context.state)).collect();
    assert_eq!(contexts, [(0, 0, State::FullContext)]);
    assert_eq!(other.arrive(1, 9, &octets("4501")).packet, Some(octets("4501").as_slice()));
    let cut = Gateway::restored(&links(), &saved[..20]).map(|_| ());
    assert!(matches!(cut, Err(SavedError::Octets { fault: 9, .. })), "{cut:?}");
}

#[test]
fn faults_of_links() {
    let bad = Link { k1: 4, ..Link::new(2) };
    let error = Gateway::new(&[Link::new(1), bad]).map(|_| ()).unwrap_err();
    assert_eq!(error, SetupError { fault: SetupFault::BadSetting, place: Some(1) });
    assert_eq!(error.to_string(), "a link's settings are outside their limits (link 2 of the list)");
    assert_eq!(Gateway::new(&[]).map(|_| ()).unwrap_err().fault, SetupFault::NoLinks);
    let range = Range { first: 0, last: 0, mode: polorowan::Mode::Unidirectional };
    let ranges = Link { ranges: vec![range; 9], ..Link::new(1) };
    assert_eq!(Gateway::new(&[ranges]).map(|_| ()).unwrap_err().fault, SetupFault::TooManyRanges);
}

#[test]
fn readers_beside_one_another() {
    let mut gateway = Gateway::new(&links()).expect("good links");
    gateway.arrive(1, 0, &octets("fc00b745aa"));
    let shared = &gateway;
    std::thread::scope(|scope| {
        for _ in 0..4 {
            scope.spawn(move || {
                for _ in 0..10_000 {
                    assert!(shared.has_context(1, 0) && !shared.has_context(1, 1));
                    assert_eq!(shared.links().count(), 2);
                }
            });
        }
    });
}

#[test]
fn a_reset() {
    let mut gateway = Gateway::new(&links()).expect("good links");
    gateway.arrive(1, 0, &octets("fc00b745aa"));
    assert_eq!(gateway.reset(3), Err(NoLink));
    assert_eq!(gateway.reset(1), Ok(()));
    assert!(!gateway.has_context(1, 0));
    let answer = gateway.arrive(1, 0, &octets("4501"));
    assert!(matches!(answer.outcome, Outcome::Refused { cid: Some(0), refusal } if refusal.name() == "NoContext"));
}

#[test]
fn links_that_come_and_go() {
    let mut gateway = Gateway::new(&links()).expect("good links");
    gateway.arrive(1, 0, &octets("fc00b745aa"));
    assert_eq!(gateway.add_link(&Link::new(7)), Ok(()));
    assert_eq!(gateway.add_link(&Link::new(7)), Err(polorowan::LinkError::DuplicateLink));
    assert_eq!(gateway.links().collect::<Vec<_>>(), [1, 2, 7]);
    assert_eq!(gateway.change_link(&Link { idle_ms: 10, ..Link::new(1) }), Ok(0));
    assert!(!gateway.has_expired(1, 0, 9) && gateway.has_expired(1, 0, 10));
    assert_eq!((gateway.forget_expired(1, 9), gateway.forget_expired(1, 10)), (Ok(0), Ok(1)));
    assert_eq!((gateway.forget(2, 3), gateway.forget(9, 3)), (Ok(0), Err(NoLink)));
    assert_eq!((gateway.remove_link(7), gateway.remove_link(7)), (Ok(0), Err(NoLink)));
    let unknown = Link::new(7);
    assert_eq!(gateway.change_link(&unknown), Err(polorowan::LinkError::NoLink));
}

#[test]
fn one_link_that_goes_to_another_gateway() {
    let (mut here, mut there) =
        (Gateway::new(&links()).expect("good links"), Gateway::new(&links()).expect("good links"));
    here.arrive(1, 0, &octets("fc00b745aa"));
    let saved = here.save_link(1, 5).expect("memory");
    assert_eq!(here.save_link(3, 5), None);
    assert_eq!(here.restore_link(1, &saved), Err(RestoreError::HasContexts));
    assert_eq!(there.restore_link(2, &saved), Err(RestoreError::OtherLink));
    let cut = there.restore_link(1, &saved[..20]).unwrap_err();
    assert_eq!(cut, RestoreError::Octets { fault: 9, place: 20 });
    assert_eq!(cut.to_string(), "they end too soon (octet 20)");
    let told = there.restore_link(1, &saved).expect("good octets");
    assert_eq!((told.moment, told.links, told.contexts), (5, 1, 1));
    assert_eq!(there.arrive(1, 9, &octets("4501")).packet, Some(octets("4501").as_slice()));
}

#[test]
fn answers_that_are_counted() {
    let mut gateway = Gateway::new(&links()).expect("good links");
    let mut counts = Counts::new();
    for packet in ["fc00b745aa", "e1fc003045aa", "", "f22005f120", "f120fc00b745aa"] {
        let answer = gateway.arrive(1, 0, &octets(packet)).outcome;
        assert_eq!(gateway.arrive_counted(1, 0, &octets(packet), &mut counts).outcome, answer);
        if let Outcome::Refused { refusal, .. } = answer {
            assert_eq!((refusal.name(), counts.refused(refusal)), ("Empty", 1));
        }
    }
    assert_eq!((counts.delivered(), counts.stored(), counts.all_refused()), (3, 0, 1));
    assert_eq!((counts.feedback_alone(), counts.relayed()), (1, 3));
    assert_eq!((counts.feedback(Word::PlainAck), counts.feedback(Word::Nack)), (3, 0));
}

#[test]
fn the_version() {
    assert!(polorowan::version().starts_with(env!("CARGO_PKG_VERSION")));
}
