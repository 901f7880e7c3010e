//! A node of a segment with its name, and with what it sends and receives for: a talker or a controller.

use crate::controller::Request;
use crate::frame::Frame;
use crate::gateway::Gateway;
use crate::lines::Lines;
use crate::node::{Node, Outcome};
use crate::reader::Fault;

/// Where a node's frames come from.
pub enum Source {
    /// A talker sends a list, from `next` on.
    Talker { frames: Vec<Frame>, next: usize },
    /// A controller sends what is requested in its mailboxes.
    Controller(usize),
}

pub struct Member {
    pub name: String,
    pub on: u32,
    pub node: Node,
    source: Source,
}

impl Member {
    pub fn new(name: String, on: u32, source: Source) -> Member {
        Member { name, on, source, node: Node::new() }
    }

    /// Whether it has a frame to send.
    #[inline]
    pub fn has_more(&self, gateway: &Gateway) -> bool {
        match &self.source {
            Source::Talker { frames, next } => *next < frames.len(),
            Source::Controller(controller) => gateway.controllers[*controller].has_requests(),
        }
    }

    /// Begins to send the next frame, if there is one.
    #[inline(never)]
    pub fn start(&mut self, bit: u32, gateway: &mut Gateway, lines: &mut Lines) {
        match &self.source {
            Source::Talker { frames, next } => {
                if let Some(&frame) = frames.get(*next) {
                    self.begin(frame, None, bit, gateway, lines);
                }
            }
            Source::Controller(controller) => {
                if let Some(request) = gateway.controllers[*controller].start() {
                    self.begin(request.frame, Some(request), bit, gateway, lines);
                }
            }
        }
    }

    fn begin(&mut self, frame: Frame, request: Option<Request>, bit: u32, gateway: &Gateway, lines: &mut Lines) {
        self.node.begin(frame, bit);
        lines.event(bit, &self.name).word("started").frame(&frame);
        lines.end(request, gateway);
    }

    #[inline(never)]
    pub fn come_to(&mut self, outcome: Outcome, bit: u32, gateway: &mut Gateway, lines: &mut Lines) {
        let start = self.node.start();
        match outcome {
            Outcome::Nothing => (),
            Outcome::Took => self.took(bit, gateway, lines),
            Outcome::Completed => self.completed(bit, gateway, lines),
            Outcome::Back => lines.event(bit, &self.name).word("back").end(),
            Outcome::Off => {
                lines.event(bit, &self.name).word("off").end();
                self.failed(bit, gateway, lines);
            }
            Outcome::Lost => {
                lines.event(bit, &self.name).word("lost").number(start).end();
                self.failed(bit, gateway, lines);
            }
            Outcome::Error(fault) => {
                lines.event(bit, &self.name).word("error").word(fault_name(fault)).end();
                self.failed(bit, gateway, lines);
            }
        }
    }

    fn took(&mut self, bit: u32, gateway: &mut Gateway, lines: &mut Lines) {
        let frame = self.node.taken();
        if let Source::Controller(controller) = self.source {
            gateway.controllers[controller].offer(frame);
        }
        lines.event(bit, &self.name).word("took").number(self.node.start()).frame(&frame).end();
    }

    fn completed(&mut self, bit: u32, gateway: &mut Gateway, lines: &mut Lines) {
        let (frame, request) = match &mut self.source {
            Source::Talker { frames, next } => {
                *next += 1;
                (frames[*next - 1], None)
            }
            Source::Controller(controller) => {
                let Some(request) = gateway.controllers[*controller].complete() else {
                    return;
                };
                gateway.routes[request.route].completed += 1;
                (request.frame, Some(request))
            }
        };
        lines.event(bit, &self.name).word("completed").number(self.node.start()).frame(&frame);
        lines.end(request, gateway);
    }

    /// What was on the bus failed; a request whose abort was asked for ends with that.
    fn failed(&mut self, bit: u32, gateway: &mut Gateway, lines: &mut Lines) {
        if let Source::Controller(controller) = self.source {
            if let Some(request) = gateway.controllers[controller].fail() {
                gateway.routes[request.route].aborted += 1;
                lines.event(bit, &self.name).word("reaped");
                lines.end(Some(request), gateway);
            }
        }
    }
}

fn fault_name(fault: Fault) -> &'static str {
    match fault {
        Fault::Bit => "bit",
        Fault::Stuff => "stuff",
        Fault::Form => "form",
        Fault::Ack => "ack",
        Fault::Crc => "crc",
    }
}
