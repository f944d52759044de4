//! A program that decompresses, beside this one: each packet is answered before the next is sent.

use std::io::{BufRead, BufReader, Write};
use std::process::{Child, ChildStdin, ChildStdout, Command, Stdio};

use crate::fault::{write, Fault};
use crate::flow::Link;
use crate::script::{hex, octets};

/// A line of the answer to a packet that matters on a link.
#[derive(Clone, Debug, PartialEq, Eq)]
pub enum Answer {
    /// A packet of a context, in digits.
    Came(u16, String),
    /// An element for the compressor.
    Said(Vec<u8>),
}

/// A run of `PROGRAM replay`, with a links file of its own.
pub struct Live {
    program: String,
    links: String,
    link: u16,
    child: Child,
    input: Option<ChildStdin>,
    output: BufReader<ChildStdout>,
}

/// A line that every program refuses: its answer ends those of the line before it.
const END: &str = "end";
const ENDED: &str = "- - refused BadLine";

/// A line of an answer, if it is one; nothing if it doesn't matter here.
fn read(line: &str) -> Option<Option<Answer>> {
    match line.split(' ').collect::<Vec<_>>()[..] {
        [_, cid, "ip", packet] => Some(Some(Answer::Came(cid.parse().ok()?, packet.to_string()))),
        [_, _, "feedback", data] => Some(Some(Answer::Said(octets(data)?))),
        [_, _, "refused" | "relay", _] | [_, _, "stored"] => Some(None),
        _ => None,
    }
}

impl Live {
    pub fn start(program: &str, link: Link) -> Result<Live, Fault> {
        let links = std::env::temp_dir().join(format!("compressor-{}.toml", std::process::id()));
        let links = links.to_string_lossy().into_owned();
        write(&links, link.file().as_bytes())?;
        let call = ["replay", "--links", &links];
        let started = Command::new(program).args(call).stdin(Stdio::piped()).stdout(Stdio::piped()).spawn();
        let fault = || Fault::input(program, "whole file".to_string(), "NotStarted");
        let mut child = started.map_err(|_| {
            let _ = std::fs::remove_file(&links);
            fault()
        })?;
        let input = Some(child.stdin.take().ok_or_else(fault)?);
        let output = BufReader::new(child.stdout.take().ok_or_else(fault)?);
        Ok(Live { program: program.to_string(), links, link: link.number, child, input, output })
    }

    /// What the program answers to a packet.
    pub fn arrive(&mut self, moment: u64, packet: &[u8]) -> Result<Vec<Answer>, Fault> {
        let lines = format!("arrive {} {moment} {}\n{END}\n", self.link, hex(packet));
        let fault = |name| Fault::input(&self.program, format!("at {moment} ms"), name);
        let input = self.input.as_mut().ok_or_else(|| fault("NoAnswer"))?;
        input.write_all(lines.as_bytes()).map_err(|_| fault("NoAnswer"))?;
        let mut all = Vec::new();
        loop {
            let mut line = String::new();
            self.output.read_line(&mut line).map_err(|_| fault("NoAnswer"))?;
            match line.strip_suffix('\n') {
                Some(ENDED) => return Ok(all),
                Some(line) => all.extend(read(line).ok_or_else(|| fault("BadLine"))?),
                None => return Err(fault("NoAnswer")),
            }
        }
    }

    /// The program ends well at the end of its input.
    pub fn end(&mut self) -> Result<(), Fault> {
        self.input = None;
        match self.child.wait() {
            Ok(status) if status.success() => Ok(()),
            _ => Err(Fault::input(&self.program, "at the end".to_string(), "BadEnd")),
        }
    }
}

impl Drop for Live {
    fn drop(&mut self) {
        // After a fault the program still runs.
        let _ = self.child.kill();
        let _ = self.child.wait();
        let _ = std::fs::remove_file(&self.links);
    }
}

#[cfg(test)]
mod tests {
    use super::*;

    #[test]
    fn lines() {
        assert_eq!(read("1 3 ip 45ab"), Some(Some(Answer::Came(3, "45ab".to_string()))));
        assert_eq!(read("1 0 feedback f100"), Some(Some(Answer::Said(vec![0xf1, 0]))));
        for line in ["1 0 refused Check", "1 - relay 00", "1 0 stored", ENDED] {
            assert_eq!(read(line), Some(None), "{line}");
        }
        for line in ["", "1 0 up 45", "1 x ip 45", "1 0 feedback f"] {
            assert_eq!(read(line), None, "{line}");
        }
    }
}
