//! Frames of classical CAN, and the levels by which a sender spells them.

pub const DOMINANT: bool = false;
pub const RECESSIVE: bool = true;

#[derive(Clone, Copy, PartialEq, Eq, Default)]
pub struct Frame {
    pub id: u32,
    pub extended: bool,
    pub remote: bool,
    /// The data length code, which is the number of bytes of a data frame.
    pub length: u8,
    pub bytes: [u8; 8],
}

impl Frame {
    pub fn data(&self) -> &[u8] {
        if self.remote { &[] } else { &self.bytes[..self.length as usize] }
    }

    /// What decides in arbitration, from the identifier to RTR and IDE: the lower wins.
    pub fn arbitration_field(&self) -> u32 {
        let remote = self.remote as u32;
        if self.extended {
            let (base, lower) = (self.id >> 18, self.id & 0x3ffff);
            base << 21 | 0b11 << 19 | lower << 1 | remote
        } else {
            self.id << 21 | remote << 20
        }
    }
}

/// The CRC register behind one more level.
pub fn crc_step(register: u16, level: bool) -> u16 {
    let feedback = level as u16 ^ register >> 14;
    (register << 1 & 0x7fff) ^ (0x4599 & 0u16.wrapping_sub(feedback))
}

/// What a level of the wire form stands for, as far as its sender minds.
#[derive(Clone, Copy, PartialEq, Eq)]
pub enum Kind {
    Plain,
    /// The arbitration field before RTR.
    BeforeRtr,
    Rtr,
    /// A stuff bit before RTR.
    Stuffed,
    AckSlot,
}

#[derive(Clone, Copy)]
pub struct WireBit {
    pub level: bool,
    pub kind: Kind,
}

/// The wire form of a frame, from SOF to the last bit of EOF.
pub struct Wire {
    bits: [WireBit; 160],
    length: usize,
    last: bool,
    run: u8,
    crc: u16,
}

impl Wire {
    pub fn new() -> Wire {
        let nothing = WireBit { level: RECESSIVE, kind: Kind::Plain };
        Wire { bits: [nothing; 160], length: 0, last: RECESSIVE, run: 0, crc: 0 }
    }

    pub fn len(&self) -> usize {
        self.length
    }

    pub fn bit(&self, place: usize) -> WireBit {
        self.bits[place]
    }

    pub fn levels_before(&self, place: usize) -> impl Iterator<Item = bool> + '_ {
        self.bits[..place].iter().map(|bit| bit.level)
    }

    pub fn spell(&mut self, frame: &Frame) {
        (self.length, self.last, self.run, self.crc) = (0, RECESSIVE, 0, 0);
        self.field(DOMINANT as u32, 1, Kind::Plain);
        if frame.extended {
            self.field(frame.id >> 18, 11, Kind::BeforeRtr);
            self.field(0b11, 2, Kind::BeforeRtr);
            self.field(frame.id & 0x3ffff, 18, Kind::BeforeRtr);
        } else {
            self.field(frame.id, 11, Kind::BeforeRtr);
        }
        self.field(frame.remote as u32, 1, Kind::Rtr);
        // IDE and r0 of a standard frame, r1 and r0 of an extended one
        self.field(0, 2, Kind::Plain);
        self.field(frame.length as u32, 4, Kind::Plain);
        for &byte in frame.data() {
            self.field(byte as u32, 8, Kind::Plain);
        }
        self.field(self.crc as u32, 15, Kind::Plain);
        self.tail();
    }

    /// The lowest `width` bits of `value`, the highest first, with their stuff bits.
    fn field(&mut self, value: u32, width: u32, kind: Kind) {
        for place in (0..width).rev() {
            let level = value >> place & 1 == 1;
            self.crc = crc_step(self.crc, level);
            self.put(level, kind);
            self.run = if level == self.last { self.run + 1 } else { 1 };
            self.last = level;
            if self.run == 5 {
                self.last = !level;
                self.run = 1;
                let stuffed = if kind == Kind::BeforeRtr { Kind::Stuffed } else { Kind::Plain };
                self.put(self.last, stuffed);
            }
        }
    }

    /// The CRC delimiter, the ACK slot, the ACK delimiter, and seven bits of EOF.
    fn tail(&mut self) {
        self.put(RECESSIVE, Kind::Plain);
        self.put(RECESSIVE, Kind::AckSlot);
        for _ in 0..8 {
            self.put(RECESSIVE, Kind::Plain);
        }
    }

    fn put(&mut self, level: bool, kind: Kind) {
        self.bits[self.length] = WireBit { level, kind };
        self.length += 1;
    }
}
