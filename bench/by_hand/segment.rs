//! A segment: the wired AND of its nodes, bit by bit.

use crate::frame::RECESSIVE;
use crate::gateway::Gateway;
use crate::lines::Lines;
use crate::member::Member;
use crate::node::Outcome;

/// What is wrong at one bit: the line's level, and the nodes whose sample is turned over.
#[derive(Default)]
pub struct Disturbance {
    pub level: Option<bool>,
    pub turned_over: u16,
}

pub struct Segment {
    members: Vec<Member>,
    /// In the order of their bits, from `next_disturbance` on still to come.
    disturbances: Vec<(u32, Disturbance)>,
    next_disturbance: usize,
    lines: Lines,
}

impl Segment {
    pub fn new(name: String, members: Vec<Member>, disturbances: Vec<(u32, Disturbance)>) -> Segment {
        Segment { members, disturbances, next_disturbance: 0, lines: Lines::new(name) }
    }

    pub fn text(&self) -> &[u8] {
        self.lines.bytes()
    }

    pub fn make_bit(&mut self, bit: u32, gateway: &mut Gateway) {
        let mut line = RECESSIVE;
        for member in self.members.iter_mut().filter(|member| member.on <= bit) {
            if member.node.wants_start() && member.has_more(gateway) {
                member.start(bit, gateway, &mut self.lines);
            }
            line &= member.node.drives();
        }
        let (line, mut turned_over) = self.disturbed(bit, line);
        for member in &mut self.members {
            let level = line ^ (turned_over & 1 == 1);
            turned_over >>= 1;
            if member.on > bit {
                continue;
            }
            let outcome = member.node.sample(level, bit);
            if outcome != Outcome::Nothing {
                member.come_to(outcome, bit, gateway, &mut self.lines);
            }
        }
    }

    /// The line's level with its fault at this bit, and the nodes that have one.
    fn disturbed(&mut self, bit: u32, line: bool) -> (bool, u16) {
        match self.disturbances.get(self.next_disturbance) {
            Some((at, disturbance)) if *at == bit => {
                self.next_disturbance += 1;
                (disturbance.level.unwrap_or(line), disturbance.turned_over)
            }
            _ => (line, 0),
        }
    }

    /// The lines behind those of the events: each node's counters, and the end.
    pub fn tell_end(&mut self, bits: u32) {
        for member in &self.members {
            let counters = member.node.counters();
            let line = self.lines.line("node").word(&member.name);
            line.word("tec").number(counters.tec).word("rec").number(counters.rec);
            line.word(counters.state_name()).end();
        }
        self.lines.line("end").number(bits).end();
    }
}
