//! The yardstick for print: finds the text's length while it tests the frame, and writes into the
//! lent buffer in another walk.

use super::check::{self, digits};

/// The text's length, or the refusal's number.
pub fn print(frame: &[u8], text: &mut [u8]) -> Result<usize, u8> {
    let checked = check::frame::<true>(frame)?;
    let text = text.get_mut(..checked.text).ok_or(15)?;
    let mut writer = Writer {
        frame,
        at: checked.start,
        text,
        end: 0,
    };
    writer.node();
    Ok(writer.end)
}

/// Writes the text of a frame that was checked into a buffer of its length.
struct Writer<'a> {
    frame: &'a [u8],
    at: usize,
    text: &'a mut [u8],
    end: usize,
}

impl Writer<'_> {
    fn byte(&mut self) -> u8 {
        self.at += 1;
        self.frame[self.at - 1]
    }

    fn two(&mut self) -> u16 {
        u16::from_be_bytes([self.byte(), self.byte()])
    }

    fn put(&mut self, character: u8) {
        self.text[self.end] = character;
        self.end += 1;
    }

    fn put_number(&mut self, mut number: u16) {
        let end = self.end + digits(number);
        for place in self.text[self.end..end].iter_mut().rev() {
            *place = b'0' + (number % 10) as u8;
            number /= 10;
        }
        self.end = end;
    }

    fn put_digit(&mut self, half: u8) {
        self.put(b"0123456789abcdef"[usize::from(half)]);
    }

    fn node(&mut self) {
        match self.byte() {
            0 => {
                self.put(b'c');
                self.put_two();
                self.put(b':');
                self.put_two();
            }
            1 => self.literal(),
            2 => self.binary(),
            3 => self.function(),
            _ => {
                self.put(b'x');
                self.put_two();
                self.children();
            }
        }
    }

    fn put_two(&mut self) {
        let number = self.two();
        self.put_number(number);
    }

    fn literal(&mut self) {
        self.put(b'#');
        let kind = self.byte();
        self.put_number(u16::from(kind));
        self.put(b':');
        for _ in 0..8 {
            let byte = self.byte();
            self.put_digit(byte / 16);
            self.put_digit(byte % 16);
        }
    }

    fn binary(&mut self) {
        let op = self.byte();
        self.put(b'(');
        self.node();
        self.put(b' ');
        self.put(b'o');
        self.put_number(u16::from(op));
        self.put(b' ');
        self.node();
        self.put(b')');
    }

    fn function(&mut self) {
        let size = self.byte();
        self.put(b'f');
        self.put_number(u16::from(size));
        self.put(b':');
        let size = usize::from(size);
        let name = &self.frame[self.at..self.at + size];
        self.text[self.end..self.end + size].copy_from_slice(name);
        self.at += size;
        self.end += size;
        self.children();
    }

    fn children(&mut self) {
        self.put(b'[');
        for place in 0..self.byte() {
            if place > 0 {
                self.put(b',');
            }
            self.node();
        }
        self.put(b']');
    }
}
