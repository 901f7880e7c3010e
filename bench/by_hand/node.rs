//! A node of a segment: it drives a level, samples one, and counts its errors.

mod waits;

use crate::counters::Counters;
use crate::frame::{Frame, Kind, Wire, WireBit, DOMINANT, RECESSIVE};
use crate::reader::{Fault, Reader, Step};

#[derive(Clone, Copy, PartialEq, Eq)]
enum State {
    Sync,
    Idle,
    Send,
    Take,
    ActiveFlag,
    PassiveFlag,
    Delimiter,
    Intermission,
    Suspend,
    Off,
}

#[derive(Clone, Copy, PartialEq, Eq)]
pub enum Outcome {
    Nothing,
    Took,
    Completed,
    Lost,
    Error(Fault),
    Off,
    Back,
}

pub struct Node {
    state: State,
    /// How far the state has come, in bits of its own.
    count: u8,
    is_sender: bool,
    /// The third bit of the intermission was dominant: a sender may go on behind that SOF.
    may_join: bool,
    place: usize,
    counters: Counters,
    /// The bit of SOF of the frame that it sends or takes.
    start: u32,
    reader: Reader,
    /// Of a flag and its delimiter: the last level, dominant bits in a row, which of these counts first.
    last: Option<bool>,
    run: u32,
    first: u32,
    is_overload: bool,
    is_first: bool,
    /// An error that counts with the first dominant bit of the passive flag.
    owes: bool,
    /// In bus off, of eleven recessive bits each.
    runs: u32,
    frame: Option<Frame>,
    wire: Wire,
}

impl Node {
    pub fn new() -> Node {
        Node {
            state: State::Sync,
            count: 0,
            is_sender: false,
            may_join: false,
            place: 0,
            counters: Counters::default(),
            start: 0,
            reader: Reader::new(),
            last: None,
            run: 0,
            first: 0,
            is_overload: false,
            is_first: false,
            owes: false,
            runs: 0,
            frame: None,
            wire: Wire::new(),
        }
    }

    pub fn counters(&self) -> &Counters {
        &self.counters
    }

    pub fn start(&self) -> u32 {
        self.start
    }

    /// The frame that it took.
    pub fn taken(&self) -> Frame {
        self.reader.frame()
    }

    pub fn wants_start(&self) -> bool {
        self.state == State::Idle || self.may_join
    }

    pub fn begin(&mut self, frame: Frame, bit: u32) {
        // a frame that is tried again is spelled already
        if self.frame != Some(frame) {
            self.frame = Some(frame);
            self.wire.spell(&frame);
        }
        if self.state == State::Idle {
            self.start = bit;
            self.place = 0;
        } else {
            // SOF stood at the bit before
            self.place = 1;
        }
        self.state = State::Send;
        self.is_sender = true;
        self.may_join = false;
    }

    pub fn drives(&self) -> bool {
        match self.state {
            State::Send => self.wire.bit(self.place).level,
            State::Take if self.reader.acknowledges() => DOMINANT,
            State::ActiveFlag => DOMINANT,
            _ => RECESSIVE,
        }
    }

    #[inline]
    pub fn sample(&mut self, level: bool, bit: u32) -> Outcome {
        self.may_join = false;
        match self.state {
            State::Idle if level == RECESSIVE => Outcome::Nothing,
            State::Send => self.send(level),
            State::Take => self.take(level),
            _ => self.wait(level, bit),
        }
    }

    fn enter(&mut self, state: State) {
        self.state = state;
        self.count = 0;
    }

    fn add(&mut self, amount: u32) {
        self.counters.add(self.is_sender, amount);
    }

    /// Bus off, if what was counted last leads there.
    fn counted(&mut self) -> Outcome {
        if !self.counters.is_off() {
            return Outcome::Nothing;
        }
        self.enter(State::Off);
        self.runs = 0;
        Outcome::Off
    }

    fn flag(&mut self, state: State, is_overload: bool) -> Outcome {
        self.enter(state);
        self.is_overload = is_overload;
        self.run = 0;
        self.last = None;
        Outcome::Nothing
    }

    fn overload(&mut self) -> Outcome {
        self.flag(State::ActiveFlag, true)
    }

    /// An error, whose flag begins with the next bit, by the state before the error.
    fn error(&mut self, fault: Fault) -> Outcome {
        let was_passive = self.counters.is_passive();
        self.add(if self.is_sender { 8 } else { 1 });
        if self.counters.is_off() {
            return self.counted();
        }
        self.uncounted_error(fault, was_passive)
    }

    fn uncounted_error(&mut self, fault: Fault, is_passive: bool) -> Outcome {
        self.flag(if is_passive { State::PassiveFlag } else { State::ActiveFlag }, false);
        self.owes = false;
        Outcome::Error(fault)
    }

    /// This bit is the SOF of another node's frame.
    fn read(&mut self, bit: u32) {
        self.state = State::Take;
        self.is_sender = false;
        self.start = bit;
        self.reader = Reader::new();
        self.reader.push(DOMINANT);
    }

    #[inline]
    fn send(&mut self, level: bool) -> Outcome {
        let driven = self.wire.bit(self.place);
        self.place += 1;
        if level == driven.level && driven.kind != Kind::AckSlot && self.place < self.wire.len() {
            return Outcome::Nothing;
        }
        self.send_on(level, driven)
    }

    /// What a sender makes of another level than its own, of the ACK slot, and of the last bit.
    #[inline(never)]
    fn send_on(&mut self, level: bool, driven: WireBit) -> Outcome {
        match driven.kind {
            Kind::AckSlot if level == DOMINANT => Outcome::Nothing,
            Kind::AckSlot => self.unacknowledged(),
            _ if level == driven.level => self.sent(),
            Kind::BeforeRtr | Kind::Rtr if driven.level == RECESSIVE => self.lose(),
            Kind::Stuffed if driven.level == RECESSIVE => {
                let is_passive = self.counters.is_passive();
                self.uncounted_error(Fault::Stuff, is_passive)
            }
            _ => self.error(Fault::Bit),
        }
    }

    fn unacknowledged(&mut self) -> Outcome {
        if !self.counters.is_passive() {
            return self.error(Fault::Ack);
        }
        let outcome = self.uncounted_error(Fault::Ack, true);
        self.owes = true;
        outcome
    }

    fn sent(&mut self) -> Outcome {
        self.counters.sent();
        self.enter(State::Intermission);
        Outcome::Completed
    }

    /// It goes on as a receiver, who has read what was sent up to the bit before, and then this dominant one.
    fn lose(&mut self) -> Outcome {
        self.state = State::Take;
        self.is_sender = false;
        self.reader = Reader::new();
        for level in self.wire.levels_before(self.place - 1) {
            self.reader.push(level);
        }
        self.reader.push(DOMINANT);
        Outcome::Lost
    }

    #[inline]
    fn take(&mut self, level: bool) -> Outcome {
        let acknowledges = self.reader.acknowledges();
        match self.reader.push(level) {
            Step::More if !acknowledges => Outcome::Nothing,
            Step::More => self.acknowledged(level),
            step => self.read_on(step, level),
        }
    }

    #[inline(never)]
    fn read_on(&mut self, step: Step, level: bool) -> Outcome {
        match step {
            Step::Taken => Outcome::Took,
            Step::Last if level == DOMINANT => self.overload(),
            Step::More | Step::Last => {
                self.enter(State::Intermission);
                Outcome::Nothing
            }
            Step::Fault(fault) => self.error(fault),
        }
    }

    #[inline(never)]
    fn acknowledged(&mut self, level: bool) -> Outcome {
        if level == RECESSIVE {
            return self.error(Fault::Bit);
        }
        self.counters.received();
        Outcome::Nothing
    }
}
