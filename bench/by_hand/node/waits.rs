//! The bits at which a node neither sends nor reads a frame: it waits, or signals an error or an overload.

use super::{Node, Outcome, State};
use crate::counters::Counters;
use crate::frame::{DOMINANT, RECESSIVE};
use crate::reader::Fault;

impl Node {
    /// A bit at which it neither sends nor reads a frame.
    #[inline(never)]
    pub(super) fn wait(&mut self, level: bool, bit: u32) -> Outcome {
        match self.state {
            State::Sync => self.sync(level),
            State::ActiveFlag => self.active_flag(level),
            State::PassiveFlag => self.passive_flag(level),
            State::Delimiter => self.delimiter(level),
            State::Intermission => self.intermission(level, bit),
            State::Suspend => self.suspend(level, bit),
            State::Off => self.off(level),
            State::Idle | State::Send | State::Take => self.idle(level, bit),
        }
    }

    fn sync(&mut self, level: bool) -> Outcome {
        self.count = if level == RECESSIVE { self.count + 1 } else { 0 };
        if self.count == 11 {
            self.enter(State::Idle);
        }
        Outcome::Nothing
    }

    fn idle(&mut self, level: bool, bit: u32) -> Outcome {
        if level == DOMINANT {
            self.read(bit);
        }
        Outcome::Nothing
    }

    fn off(&mut self, level: bool) -> Outcome {
        self.count = if level == RECESSIVE { self.count + 1 } else { 0 };
        if self.count < 11 {
            return Outcome::Nothing;
        }
        self.count = 0;
        self.runs += 1;
        if self.runs < 128 {
            return Outcome::Nothing;
        }
        self.counters = Counters::default();
        self.enter(State::Idle);
        Outcome::Back
    }

    /// Dominant bits in a row: the `first`-th of them counts, and each eighth from there.
    fn count_dominant(&mut self, level: bool, first: u32) {
        self.run = if level == DOMINANT { self.run + 1 } else { 0 };
        if self.run >= first && (self.run - first) % 8 == 0 {
            self.add(8);
        }
    }

    fn begin_delimiter(&mut self, first: u32) {
        self.enter(State::Delimiter);
        self.first = first;
        self.is_first = true;
    }

    fn active_flag(&mut self, level: bool) -> Outcome {
        self.count += 1;
        if level == RECESSIVE {
            self.add(8);
        }
        self.count_dominant(level, 14);
        if self.count == 6 {
            self.begin_delimiter(14);
        }
        self.counted()
    }

    fn passive_flag(&mut self, level: bool) -> Outcome {
        if level == DOMINANT && self.owes {
            self.owes = false;
            self.add(8);
        }
        self.count = if self.last == Some(level) { self.count + 1 } else { 1 };
        self.last = Some(level);
        if self.count == 6 {
            self.begin_delimiter(8);
        }
        self.counted()
    }

    fn delimiter(&mut self, level: bool) -> Outcome {
        let is_first = std::mem::replace(&mut self.is_first, false);
        if self.count == 0 && level == DOMINANT {
            if is_first && !self.is_sender && !self.is_overload {
                self.add(8);
            }
            self.count_dominant(level, self.first);
            return self.counted();
        }
        self.count += 1;
        match level {
            DOMINANT if self.count < 8 => return self.error(Fault::Form),
            DOMINANT => return self.overload(),
            RECESSIVE if self.count == 8 => self.enter(State::Intermission),
            RECESSIVE => (),
        }
        Outcome::Nothing
    }

    fn intermission(&mut self, level: bool, bit: u32) -> Outcome {
        self.count += 1;
        if self.count < 3 {
            return if level == DOMINANT { self.overload() } else { Outcome::Nothing };
        }
        let waits = self.is_sender && self.counters.is_passive();
        if level == DOMINANT {
            self.read(bit);
            self.may_join = !waits;
        } else {
            self.enter(if waits { State::Suspend } else { State::Idle });
        }
        Outcome::Nothing
    }

    fn suspend(&mut self, level: bool, bit: u32) -> Outcome {
        self.count += 1;
        if level == DOMINANT {
            self.read(bit);
        } else if self.count == 8 {
            self.enter(State::Idle);
        }
        Outcome::Nothing
    }
}
