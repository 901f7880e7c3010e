//! Lines of the report: words that a blank parts.

use crate::frame::Frame;

#[derive(Default)]
pub struct Text {
    bytes: Vec<u8>,
}

const HEXADECIMAL: &[u8; 16] = b"0123456789abcdef";

impl Text {
    pub fn bytes(&self) -> &[u8] {
        &self.bytes
    }

    pub fn word(&mut self, word: &str) -> &mut Text {
        self.bytes.extend_from_slice(word.as_bytes());
        self.bytes.push(b' ');
        self
    }

    pub fn number(&mut self, mut number: u32) -> &mut Text {
        let mut digits = [b' '; 11];
        let mut first = digits.len() - 1;
        loop {
            first -= 1;
            digits[first] = b'0' + (number % 10) as u8;
            number /= 10;
            if number == 0 {
                break;
            }
        }
        // the last place is the blank behind the number
        self.bytes.extend_from_slice(&digits[first..]);
        self
    }

    fn hexadecimal(&mut self, number: u32, digits: u32) {
        for digit in (0..digits).rev() {
            self.bytes.push(HEXADECIMAL[(number >> (4 * digit) & 0xf) as usize]);
        }
    }

    pub fn frame(&mut self, frame: &Frame) -> &mut Text {
        self.hexadecimal(frame.id, if frame.extended { 8 } else { 3 });
        self.bytes.push(b' ');
        if frame.remote {
            return self.word("remote").number(frame.length as u32);
        }
        self.word("data");
        for &byte in frame.data() {
            self.hexadecimal(byte as u32, 2);
        }
        self.word(if frame.length == 0 { "-" } else { "" })
    }

    /// The line feed stands in the place of the last blank.
    pub fn end(&mut self) {
        if let Some(last) = self.bytes.last_mut() {
            *last = b'\n';
        }
    }
}
