//! Numbers as big-endian bytes.

/// Bytes that grow at their end.
#[derive(Debug, Default, Clone, PartialEq, Eq)]
pub struct Bytes(pub Vec<u8>);

impl Bytes {
    pub fn u8(&mut self, n: u32) {
        self.0.push(u8::try_from(n).expect("a number of one byte"));
    }

    pub fn u16(&mut self, n: u32) {
        let n = u16::try_from(n).expect("a number of two bytes");
        self.0.extend(n.to_be_bytes());
    }

    pub fn u32(&mut self, n: u32) {
        self.0.extend(n.to_be_bytes());
    }

    /// A length, then the bytes themselves.
    pub fn section(&mut self, bytes: &[u8]) {
        self.u32(u32::try_from(bytes.len()).expect("a short section"));
        self.0.extend(bytes);
    }
}

/// Bytes that are read from their beginning. Nothing is read where too few are left.
#[derive(Debug, Clone, Copy)]
pub struct Unread<'a>(pub &'a [u8]);

impl<'a> Unread<'a> {
    pub fn take(&mut self, len: usize) -> Option<&'a [u8]> {
        let (taken, left) = self.0.split_at_checked(len)?;
        self.0 = left;
        Some(taken)
    }

    /// A number of so many bytes, at most four.
    pub fn number(&mut self, len: usize) -> Option<u32> {
        let bytes = self.take(len)?.iter();
        Some(bytes.fold(0, |number, &byte| number * 256 + u32::from(byte)))
    }

    /// The bytes behind a length.
    pub fn section(&mut self) -> Option<&'a [u8]> {
        let len = self.number(4)?;
        self.take(len as usize)
    }

    /// A section of whole numbers.
    pub fn numbers(&mut self) -> Option<Vec<u32>> {
        let chunks = self.section()?.chunks(4);
        let number = |bytes| Unread(bytes).number(4);
        chunks.map(number).collect()
    }
}
