//! What a receiver makes of the levels from SOF on.

use crate::frame::{crc_step, Frame, DOMINANT, RECESSIVE};

#[derive(Clone, Copy, PartialEq, Eq)]
pub enum Fault {
    Bit,
    Stuff,
    Form,
    Ack,
    Crc,
}

#[derive(Clone, Copy, PartialEq, Eq)]
pub enum Step {
    More,
    /// The last but one bit of EOF.
    Taken,
    /// The last bit of EOF.
    Last,
    Fault(Fault),
}

/// What is known of the frame's form, and so what the next mark is.
#[derive(Clone, Copy, PartialEq, Eq)]
enum Stage {
    UpToIde,
    UpToLength,
    UpToCrc,
}

#[derive(Clone)]
pub struct Reader {
    /// The levels without stuff bits, 118 at most, the first one highest.
    text: u128,
    length: u8,
    /// The length at which the stage ends.
    mark: u8,
    stage: Stage,
    last: bool,
    run: u8,
    crc: u16,
    extended: bool,
    remote: bool,
    code: u8,
    /// 0 within the stuffed region, and then 1 and the number of levels behind it.
    tail: u8,
}

/// How many levels stand up to the data length code and with it.
const STANDARD_HEAD: u8 = 19;
const EXTENDED_HEAD: u8 = 39;

impl Reader {
    pub fn new() -> Reader {
        Reader {
            text: 0,
            length: 0,
            mark: 14,
            stage: Stage::UpToIde,
            last: RECESSIVE,
            run: 0,
            crc: 0,
            extended: false,
            remote: false,
            code: 0,
            tail: 0,
        }
    }

    /// Whether the next level is that of the ACK slot, and the CRC was right.
    pub fn acknowledges(&self) -> bool {
        self.tail == 2 && self.crc == 0
    }

    #[inline]
    pub fn push(&mut self, level: bool) -> Step {
        if self.tail > 0 {
            return self.push_tail(level);
        }
        if level == self.last {
            if self.run == 5 {
                return Step::Fault(Fault::Stuff);
            }
            self.run += 1;
        } else {
            let is_stuff_bit = self.run == 5;
            self.run = 1;
            self.last = level;
            if is_stuff_bit {
                if self.stage == Stage::UpToCrc && self.length == self.mark {
                    self.tail = 1;
                }
                return Step::More;
            }
        }
        self.text = self.text << 1 | level as u128;
        self.length += 1;
        self.crc = crc_step(self.crc, level);
        if self.length == self.mark {
            self.pass_mark();
        }
        Step::More
    }

    #[inline(never)]
    fn pass_mark(&mut self) {
        match self.stage {
            Stage::UpToIde => {
                self.extended = self.text & 1 == 1;
                self.mark = if self.extended { EXTENDED_HEAD } else { STANDARD_HEAD };
                self.stage = Stage::UpToLength;
            }
            Stage::UpToLength => {
                // in both formats six levels stand behind RTR
                self.remote = self.text >> 6 & 1 == 1;
                self.code = (self.text as u8 & 0xf).min(8);
                self.mark += 15 + if self.remote { 0 } else { 8 * self.code };
                self.stage = Stage::UpToCrc;
            }
            // a stuff bit may stand behind the last bit of the CRC
            Stage::UpToCrc if self.run < 5 => self.tail = 1,
            Stage::UpToCrc => (),
        }
    }

    #[inline(never)]
    fn push_tail(&mut self, level: bool) -> Step {
        self.tail += 1;
        match self.tail {
            // the ACK slot
            3 => Step::More,
            4 if self.crc != 0 => Step::Fault(if level == RECESSIVE { Fault::Crc } else { Fault::Form }),
            11 => Step::Last,
            _ if level == DOMINANT => Step::Fault(Fault::Form),
            10 => Step::Taken,
            _ => Step::More,
        }
    }

    /// The frame, behind its stuffed region.
    pub fn frame(&self) -> Frame {
        let body = self.text >> 15;
        let mut bytes = [0; 8];
        let count = if self.remote { 0 } else { self.code as usize };
        for (place, byte) in bytes[..count].iter_mut().enumerate() {
            *byte = (body >> (8 * (count - 1 - place))) as u8;
        }
        let head = (body >> (8 * count)) as u64;
        let id = if self.extended {
            (head >> 27 & 0x7ff) << 18 | head >> 7 & 0x3ffff
        } else {
            head >> 7 & 0x7ff
        };
        Frame { id: id as u32, extended: self.extended, remote: self.remote, length: self.code, bytes }
    }
}
