//! The fields of a block or message of 002, one after another (2.2: "All numeric fields will be in
//! Big-Endian").

/// What is left to read.
pub struct Fields<'a>(&'a [u8]);

impl<'a> Fields<'a> {
    pub fn of(bytes: &'a [u8]) -> Fields<'a> {
        Fields(bytes)
    }

    /// The next N bytes.
    pub fn chars<const N: usize>(&mut self) -> Option<[u8; N]> {
        let (field, rest) = self.0.split_first_chunk()?;
        self.0 = rest;
        Some(*field)
    }

    pub fn byte(&mut self) -> Option<u8> {
        self.chars().map(u8::from_be_bytes)
    }

    pub fn short(&mut self) -> Option<u16> {
        self.chars().map(u16::from_be_bytes)
    }

    pub fn integer(&mut self) -> Option<u32> {
        self.chars().map(u32::from_be_bytes)
    }

    pub fn long(&mut self) -> Option<u64> {
        self.chars().map(u64::from_be_bytes)
    }

    pub fn skip(&mut self, len: usize) -> Option<()> {
        self.0 = self.0.get(len..)?;
        Some(())
    }

    pub fn is_at_end(&self) -> bool {
        self.0.is_empty()
    }
}
