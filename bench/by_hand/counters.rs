//! The two error counters of a node.

#[derive(Default)]
pub struct Counters {
    pub tec: u32,
    pub rec: u32,
}

impl Counters {
    pub fn is_off(&self) -> bool {
        self.tec >= 256
    }

    pub fn is_passive(&self) -> bool {
        self.tec >= 128 || self.rec >= 128
    }

    pub fn state_name(&self) -> &'static str {
        match () {
            () if self.is_off() => "off",
            () if self.is_passive() => "passive",
            () => "active",
        }
    }

    pub fn add(&mut self, is_sender: bool, amount: u32) {
        if is_sender {
            self.tec += amount;
        } else {
            self.rec = (self.rec + amount).min(255);
        }
    }

    pub fn sent(&mut self) {
        self.tec = self.tec.saturating_sub(1);
    }

    pub fn received(&mut self) {
        self.rec = if self.rec < 128 { self.rec.saturating_sub(1) } else { 120 };
    }
}
