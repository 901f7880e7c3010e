//! A route's turns, from a receive FIFO to transmit mailboxes.

use crate::controller::{Aborted, Controller};
use crate::frame::Frame;
use crate::text::Text;

pub struct Rewrite {
    pub id: u32,
    pub extended: bool,
    pub new_id: u32,
    pub new_extended: bool,
}

pub struct Abort {
    pub number: u32,
    pub turn: u32,
}

pub struct Route {
    place: usize,
    pub name: String,
    source: usize,
    fifo: usize,
    target: usize,
    rewrites: Vec<Rewrite>,
    aborts: Vec<Abort>,
    /// How many of the aborts are done.
    done: usize,
    turns: u32,
    released: u32,
    requested: u32,
    hand: Option<Frame>,
    pub completed: u32,
    pub aborted: u32,
}

impl Route {
    pub fn new(place: usize, name: String, (source, fifo, target): (usize, usize, usize)) -> Route {
        Route {
            place,
            name,
            source,
            fifo,
            target,
            rewrites: Vec::new(),
            aborts: Vec::new(),
            done: 0,
            turns: 0,
            released: 0,
            requested: 0,
            hand: None,
            completed: 0,
            aborted: 0,
        }
    }

    pub fn rewrites(&mut self, rewrites: Vec<Rewrite>) {
        self.rewrites = rewrites;
    }

    pub fn abort_later(&mut self, abort: Abort) {
        self.aborts.push(abort);
    }

    /// One turn does one thing: an abort that is due, or what can be done of taking a frame and requesting it.
    pub fn turn(&mut self, controllers: &mut [Controller]) {
        self.turns += 1;
        if let Some(abort) = self.aborts.get(self.done) {
            if abort.turn <= self.turns && abort.number <= self.requested {
                let number = abort.number;
                self.done += 1;
                self.abort(number, &mut controllers[self.target]);
                return;
            }
        }
        if self.hand.is_none() {
            let Some(frame) = controllers[self.source].fifos[self.fifo].frames.pop_front() else {
                return;
            };
            self.released += 1;
            self.hand = Some(self.rewritten(frame));
        }
        let target = &mut controllers[self.target];
        if target.has_room() {
            if let Some(frame) = self.hand.take() {
                self.requested = self.released;
                target.request(self.place, self.requested, frame);
            }
        }
    }

    fn abort(&mut self, number: u32, target: &mut Controller) {
        match target.abort(self.place, number) {
            Aborted::Now => self.aborted += 1,
            Aborted::Asked | Aborted::Gone => (),
        }
    }

    /// The frame under the new identifier of the first entry that is for its own.
    fn rewritten(&self, frame: Frame) -> Frame {
        let is_for_it = |entry: &&Rewrite| entry.id == frame.id && entry.extended == frame.extended;
        match self.rewrites.iter().find(is_for_it) {
            Some(entry) => Frame { id: entry.new_id, extended: entry.new_extended, ..frame },
            None => frame,
        }
    }

    pub fn tell(&self, controllers: &[Controller], text: &mut Text) {
        let fifo = &controllers[self.source].fifos[self.fifo];
        let held = fifo.frames.len() + self.hand.is_some() as usize + controllers[self.target].waiting(self.place);
        text.word("route").word(&self.name);
        text.word("accepted").number(fifo.accepted).word("overrun").number(fifo.overrun);
        text.word("released").number(self.released).word("completed").number(self.completed);
        text.word("aborted").number(self.aborted).word("held").number(held as u32).end();
    }
}
