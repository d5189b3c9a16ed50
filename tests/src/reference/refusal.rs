//! Refusals, and reading byte after byte.

#[derive(Clone, Copy, PartialEq, Eq, PartialOrd, Ord, Debug)]
pub enum Input {
    Chart = 0,
    /// The sheet, or a list of reasons.
    Sheet = 1,
    BufferOrName = 2,
    /// The second of two charts.
    Second = 3,
}

#[derive(Clone, Copy, PartialEq, Eq, Debug)]
pub struct Refusal {
    pub input: Input,
    pub number: u8,
    /// For 6 and 7 the triple's number from 0.
    pub place: usize,
    /// 0, 1 or 2 for the byte within a triple in 6, and 0 everywhere else.
    pub byte: u8,
    /// What stands at the place, in words. No part of the answer: the checks count by it which places were met.
    pub what: &'static str,
}

impl Refusal {
    /// As the calls for C return it.
    pub fn packed(&self) -> u64 {
        self.number as u64 | (self.input as u64) << 8 | (self.place as u64) << 16 | (self.byte as u64) << 48
    }
}

/// 14: the lent buffer is too short.
pub fn long_enough(buffer: &[u8], length: usize) -> Result<(), Refusal> {
    if buffer.len() < length {
        return Err(Refusal { input: Input::BufferOrName, number: 14, place: 0, byte: 0, what: "buffer" });
    }
    Ok(())
}

/// An input and how far it is read.
pub struct Cursor<'a> {
    input: Input,
    bytes: &'a [u8],
    pub at: usize,
}

impl<'a> Cursor<'a> {
    pub fn new(input: Input, bytes: &'a [u8]) -> Cursor<'a> {
        Cursor { input, bytes, at: 0 }
    }

    /// The next byte. 1: a needed byte is absent; place: the input's length.
    pub fn byte(&mut self, what: &'static str) -> Result<u8, Refusal> {
        match self.bytes.get(self.at) {
            Some(&byte) => {
                self.at += 1;
                Ok(byte)
            }
            None => self.refuse(1, self.bytes.len(), what),
        }
    }

    /// 8: bytes are left over; place: the first.
    pub fn end(&self) -> Result<(), Refusal> {
        if self.at < self.bytes.len() {
            return self.refuse(8, self.at, "byte left over");
        }
        Ok(())
    }

    pub fn refuse<T>(&self, number: u8, place: usize, what: &'static str) -> Result<T, Refusal> {
        Err(Refusal { input: self.input, number, place, byte: 0, what })
    }

    /// Of a triple, by its number from 0 and the byte within it.
    pub fn refuse_triple<T>(&self, number: u8, (place, byte): (usize, u8), what: &'static str) -> Result<T, Refusal> {
        Err(Refusal { input: self.input, number, place, byte, what })
    }
}
