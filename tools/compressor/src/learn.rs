//! What a sender learns from its stream: the TS stride and the behaviour of the Identification.

use crate::header::Header;

/// How the Identification of a stream goes (RFC 3095 4.5.5).
#[derive(Clone, Copy, Debug, PartialEq, Eq)]
pub enum Behaviour {
    /// It grows by little, most significant octet first.
    Sequential,
    /// It grows by little, least significant octet first.
    Swapped,
    /// Anything else, a constant too.
    Random,
}

/// What was learned so far.
#[derive(Clone, Debug)]
pub struct Learner {
    last: Option<Header>,
    pub stride: Option<u32>,
    /// A step of the timestamp, and how often in a row it was seen.
    step: (u32, u8),
    pub behaviour: Behaviour,
    /// How many headers in a row were sequential, and swapped.
    runs: (u8, u8),
    misses: u8,
}

/// The greatest growth of the offset that still counts as sequential.
const GROWTH: u16 = 64;
/// So many equal steps make a stride; so many misses end a behaviour, and so long a run begins one.
const STEPS: u8 = 2;
const MISSES: u8 = 2;
const RUN: u8 = 3;

impl Learner {
    pub fn new(stride: Option<u32>) -> Learner {
        Learner { last: None, stride, step: (0, 0), behaviour: Behaviour::Sequential, runs: (0, 0), misses: 0 }
    }

    /// Takes the next header of the stream.
    pub fn see(&mut self, header: &Header) {
        if let Some(last) = self.last {
            let steps = header.sn.wrapping_sub(last.sn);
            if (1..0x8000).contains(&steps) {
                self.see_timestamp(&last, header, u32::from(steps));
                self.see_identification(&last, header, steps);
            } else {
                return;
            }
        }
        self.last = Some(*header);
    }

    fn see_timestamp(&mut self, last: &Header, header: &Header, steps: u32) {
        let advance = header.ts.wrapping_sub(last.ts);
        if advance == 0 || advance >= 1 << 29 || !advance.is_multiple_of(steps) || header.m {
            return;
        }
        let step = advance / steps;
        self.step = if step == self.step.0 { (step, self.step.1.saturating_add(1)) } else { (step, 1) };
        if self.step.1 >= STEPS {
            self.stride = Some(step);
        }
    }

    fn see_identification(&mut self, last: &Header, header: &Header, steps: u16) {
        let (from, to) = (last.identification, header.identification);
        let grows = |from: u16, to: u16| to != from && to.wrapping_sub(from).wrapping_sub(steps) < GROWTH;
        let sequential = grows(from, to);
        let swapped = grows(from.swap_bytes(), to.swap_bytes());
        let counted = |run: u8, goes: bool| if goes { run.saturating_add(1) } else { 0 };
        self.runs = (counted(self.runs.0, sequential), counted(self.runs.1, swapped));
        let fits = match self.behaviour {
            Behaviour::Sequential => sequential,
            Behaviour::Swapped => swapped,
            Behaviour::Random => !(sequential || swapped),
        };
        self.misses = counted(self.misses, !fits);
        self.behaviour = match self.behaviour {
            Behaviour::Random if self.runs.0 >= RUN => Behaviour::Sequential,
            Behaviour::Random if self.runs.1 >= RUN => Behaviour::Swapped,
            Behaviour::Random => Behaviour::Random,
            kept if self.misses < MISSES => kept,
            _ if self.runs.0 >= MISSES => Behaviour::Sequential,
            _ if self.runs.1 >= MISSES => Behaviour::Swapped,
            _ => Behaviour::Random,
        };
    }
}

#[cfg(test)]
mod tests {
    use super::*;
    use crate::header::tests::worked;

    fn learned(identifications: &[u16]) -> Learner {
        let mut learner = Learner::new(None);
        for (at, identification) in identifications.iter().enumerate() {
            learner.see(&worked(*identification, false, at as u16, at as u32 * 960));
        }
        learner
    }

    #[test]
    fn behaviours() {
        assert_eq!(learned(&[7, 8, 9, 12, 13]).behaviour, Behaviour::Sequential);
        assert_eq!(learned(&[0xfe00, 0xff00, 0x0001, 0x0101]).behaviour, Behaviour::Swapped);
        assert_eq!(learned(&[0x1234, 0x9876, 0x4455, 0x0011]).behaviour, Behaviour::Random);
        assert_eq!(learned(&[0, 0, 0, 0]).behaviour, Behaviour::Random);
        assert_eq!(learned(&[0, 0, 0, 0, 1, 2, 3]).behaviour, Behaviour::Sequential);
    }

    #[test]
    fn strides() {
        assert_eq!(learned(&[1, 2]).stride, None);
        assert_eq!(learned(&[1, 2, 3]).stride, Some(960));
    }
}
