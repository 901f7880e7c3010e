//! A controller: filters, two receive FIFOs of three frames, and three transmit mailboxes.

use crate::filters::Filters;
use crate::frame::Frame;
use std::collections::VecDeque;

const FIFO_PLACES: usize = 3;
pub const MAILBOXES: usize = 3;

pub struct Fifo {
    pub frames: VecDeque<Frame>,
    pub accepted: u32,
    pub overrun: u32,
}

impl Fifo {
    fn new() -> Fifo {
        Fifo { frames: VecDeque::with_capacity(FIFO_PLACES), accepted: 0, overrun: 0 }
    }

    /// The FIFO is locked: a frame that comes to a full one is discarded.
    fn offer(&mut self, frame: Frame) {
        self.accepted += 1;
        if self.frames.len() < FIFO_PLACES {
            self.frames.push_back(frame);
        } else {
            self.overrun += 1;
        }
    }
}

#[derive(Clone, Copy, PartialEq, Eq)]
enum State {
    Pending,
    Scheduled,
    Transmitting,
}

#[derive(Clone, Copy)]
pub struct Request {
    pub route: usize,
    pub number: u32,
    pub frame: Frame,
    mailbox: usize,
    state: State,
    is_abort_asked: bool,
}

pub enum Aborted {
    Now,
    /// It is on the bus, and ends with that transmission.
    Asked,
    Gone,
}

pub struct Controller {
    filters: Filters,
    goes_by_requests: bool,
    pub fifos: [Fifo; 2],
    /// In their mailboxes, the oldest one first.
    requests: Vec<Request>,
}

impl Controller {
    pub fn new(filters: Filters, goes_by_requests: bool) -> Controller {
        let fifos = [Fifo::new(), Fifo::new()];
        Controller { filters, goes_by_requests, fifos, requests: Vec::with_capacity(MAILBOXES) }
    }

    pub fn offer(&mut self, frame: Frame) {
        if let Some(fifo) = self.filters.fifo(&frame) {
            self.fifos[fifo].offer(frame);
        }
    }

    pub fn has_requests(&self) -> bool {
        !self.requests.is_empty()
    }

    pub fn has_room(&self) -> bool {
        self.requests.len() < MAILBOXES
    }

    /// Puts a frame into the lowest empty mailbox. There must be one.
    pub fn request(&mut self, route: usize, number: u32, frame: Frame) {
        let is_empty = |mailbox: &usize| self.requests.iter().all(|request| request.mailbox != *mailbox);
        if let Some(mailbox) = (0..MAILBOXES).find(is_empty) {
            let state = State::Pending;
            self.requests.push(Request { route, number, frame, mailbox, state, is_abort_asked: false });
        }
    }

    pub fn abort(&mut self, route: usize, number: u32) -> Aborted {
        let is_it = |request: &Request| request.route == route && request.number == number;
        let Some(place) = self.requests.iter().position(is_it) else {
            return Aborted::Gone;
        };
        if self.requests[place].state == State::Transmitting {
            self.requests[place].is_abort_asked = true;
            return Aborted::Asked;
        }
        self.requests.remove(place);
        Aborted::Now
    }

    /// How many requests of a route wait.
    pub fn waiting(&self, route: usize) -> usize {
        self.requests.iter().filter(|request| request.route == route).count()
    }

    /// The request that is sent next, if there is one, goes on the bus.
    pub fn start(&mut self) -> Option<Request> {
        let next = if self.goes_by_requests {
            self.requests.first_mut()
        } else {
            // what was sent before goes on trying
            let rank = |request: &&mut Request| {
                (request.state != State::Scheduled, request.frame.arbitration_field(), request.mailbox)
            };
            self.requests.iter_mut().min_by_key(rank)
        }?;
        next.state = State::Transmitting;
        Some(*next)
    }

    fn on_the_bus(&self) -> Option<usize> {
        self.requests.iter().position(|request| request.state == State::Transmitting)
    }

    /// The transmission succeeded, and its request ends.
    pub fn complete(&mut self) -> Option<Request> {
        let place = self.on_the_bus()?;
        Some(self.requests.remove(place))
    }

    /// The transmission failed, if there was one: the request is tried again, or ends here if its abort was asked for.
    pub fn fail(&mut self) -> Option<Request> {
        let place = self.on_the_bus()?;
        self.requests[place].state = State::Scheduled;
        if self.requests[place].is_abort_asked { Some(self.requests.remove(place)) } else { None }
    }
}
