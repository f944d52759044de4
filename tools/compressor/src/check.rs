//! Compares the packets that came out with those that must, and the feedback that was handed on.

use crate::fault::Fault;

/// A packet of a context of a link.
type Line<'a> = (&'a str, &'a str, &'a str);

/// What a comparison found.
#[derive(Debug, PartialEq, Eq)]
pub struct Found {
    pub expected: usize,
    pub came: usize,
    pub right: usize,
    /// The first difference, in words.
    pub first: Option<String>,
}

fn expectations<'a>(file: &str, lines: &'a [String]) -> Result<Vec<Line<'a>>, Fault> {
    let read = |(at, line): (usize, &'a String)| match line.split(' ').collect::<Vec<_>>()[..] {
        [link, cid, packet] => Ok((link, cid, packet)),
        _ => Err(Fault::input(file, format!("line {}", at + 1), "BadLine")),
    };
    lines.iter().enumerate().map(read).collect()
}

fn answers<'a>(file: &str, lines: &'a [String]) -> Result<Vec<Line<'a>>, Fault> {
    let mut all = Vec::new();
    for (at, line) in lines.iter().enumerate() {
        match line.split(' ').collect::<Vec<_>>()[..] {
            [link, cid, "ip", packet] => all.push((link, cid, packet)),
            // Feedback that is handed on has no context.
            [link, "-", "relay", data] => all.push((link, "-", data)),
            [_, _, "feedback" | "refused", _] | [_, _, "stored"] => {}
            _ => return Err(Fault::input(file, format!("line {}", at + 1), "BadLine")),
        }
    }
    Ok(all)
}

/// How far ahead a packet is looked for after a difference.
const AHEAD: usize = 64;

/// Goes through the packets that must come out, in order, octet for octet.
pub fn compare(expected: (&str, &[String]), answered: (&str, &[String])) -> Result<Found, Fault> {
    let wanted = expectations(expected.0, expected.1)?;
    let came = answers(answered.0, answered.1)?;
    let mut first = None;
    let (mut at, mut right) = (0, 0);
    for (number, want) in wanted.iter().enumerate() {
        let found = came[at..].iter().take(AHEAD).position(|line| line == want);
        if found != Some(0) && first.is_none() {
            first = Some(difference(number + 1, want, came.get(at)));
        }
        if let Some(found) = found {
            at += found + 1;
            right += 1;
        }
    }
    if first.is_none() && at < came.len() {
        first = Some(format!("after the last line: wanted nothing, came {}", said(&came[at])));
    }
    Ok(Found { expected: wanted.len(), came: came.len(), right, first })
}

fn said(line: &Line) -> String {
    format!("{} {} {}", line.0, line.1, line.2)
}

fn difference(number: usize, want: &Line, came: Option<&Line>) -> String {
    let came = came.map_or("nothing".to_string(), said);
    format!("line {number}: wanted {}, came {came}", said(want))
}

#[cfg(test)]
mod tests {
    use super::*;

    fn lines(text: &str) -> Vec<String> {
        text.lines().map(str::to_string).collect()
    }

    fn found(expected: &str, answered: &str) -> Found {
        compare(("e", &lines(expected)), ("a", &lines(answered))).unwrap()
    }

    #[test]
    fn equal_packets() {
        let answered = "1 - relay 77\n1 0 ip aa\n1 0 feedback f100\n1 0 stored\n1 0 refused Check\n1 1 ip bb\n";
        let right = Found { expected: 3, came: 3, right: 3, first: None };
        assert_eq!(found("1 - 77\n1 0 aa\n1 1 bb\n", answered), right);
    }

    #[test]
    fn differences() {
        let first = |expected, answered| found(expected, answered).first.unwrap();
        assert_eq!(first("1 0 aa\n", "1 0 ip ab\n"), "line 1: wanted 1 0 aa, came 1 0 ab");
        assert_eq!(first("1 0 aa\n", "1 1 ip aa\n"), "line 1: wanted 1 0 aa, came 1 1 aa");
        assert_eq!(first("1 0 aa\n1 0 bb\n", "1 0 ip aa\n"), "line 2: wanted 1 0 bb, came nothing");
        assert_eq!(first("1 0 aa\n", "1 0 ip aa\n1 0 ip cc\n"), "after the last line: wanted nothing, came 1 0 cc");
        let one_lost = found("1 0 aa\n1 0 bb\n1 0 cc\n", "1 0 ip aa\n1 0 ip cc\n");
        assert_eq!((one_lost.right, one_lost.first.is_some()), (2, true));
    }

    #[test]
    fn bad_lines() {
        let fault = compare(("e", &lines("1 0 aa\noops\n")), ("a", &[])).unwrap_err();
        assert_eq!(fault.to_string(), "e: line 2: BadLine");
        let fault = compare(("e", &[]), ("a", &lines("1 0 up aa\n"))).unwrap_err();
        assert_eq!(fault.to_string(), "a: line 1: BadLine");
    }
}
