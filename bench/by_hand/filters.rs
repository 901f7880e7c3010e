//! The acceptance filters of a controller.

use crate::frame::Frame;

pub struct Bank {
    pub number: u8,
    pub is_wide: bool,
    pub is_list: bool,
    pub fifo: u8,
    pub is_active: bool,
    pub r1: u32,
    pub r2: u32,
}

/// A frame matches where its image and the value agree at all ones of the mask.
struct Filter {
    is_wide: bool,
    value: u32,
    mask: u32,
    fifo: u8,
}

/// The active filters, that which is chosen first where several match in front.
pub struct Filters {
    filters: Vec<Filter>,
}

/// What filters of 32 and of 16 bits compare.
fn images(frame: &Frame) -> (u32, u32) {
    let (standard, extension) = if frame.extended { (frame.id >> 18, frame.id & 0x3ffff) } else { (frame.id, 0) };
    let (ide, rtr) = (frame.extended as u32, frame.remote as u32);
    (standard << 21 | extension << 3 | ide << 2 | rtr << 1, standard << 5 | rtr << 4 | ide << 3 | extension >> 15)
}

fn filters_of(bank: &Bank) -> Vec<Filter> {
    let filter = |value, mask| Filter { is_wide: bank.is_wide, value, mask, fifo: bank.fifo };
    let (r1, r2) = (bank.r1, bank.r2);
    let (low, high) = (|register: u32| register & 0xffff, |register: u32| register >> 16);
    match (bank.is_wide, bank.is_list) {
        (true, false) => vec![filter(r1, r2)],
        (true, true) => vec![filter(r1, u32::MAX), filter(r2, u32::MAX)],
        (false, false) => vec![filter(low(r1), high(r1)), filter(low(r2), high(r2))],
        (false, true) => [low(r1), high(r1), low(r2), high(r2)].map(|value| filter(value, 0xffff)).into(),
    }
}

impl Filters {
    pub fn new(mut banks: Vec<Bank>) -> Filters {
        banks.retain(|bank| bank.is_active);
        // 32 bits before 16, a list before a mask, then by bank
        banks.sort_by_key(|bank| (!bank.is_wide, !bank.is_list, bank.number));
        Filters { filters: banks.iter().flat_map(filters_of).collect() }
    }

    /// The FIFO of the chosen filter, if one matches.
    pub fn fifo(&self, frame: &Frame) -> Option<usize> {
        let (wide, narrow) = images(frame);
        let is_match = |filter: &&Filter| {
            let image = if filter.is_wide { wide } else { narrow };
            (image ^ filter.value) & filter.mask == 0
        };
        self.filters.iter().find(is_match).map(|filter| filter.fifo as usize)
    }
}
