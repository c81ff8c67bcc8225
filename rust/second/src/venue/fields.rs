//! Fields read one behind the other, as source document 000 lists them (4.6: big-endian numbers,
//! printable characters).

/// What is left of a block or message to be read.
#[derive(Clone, Copy)]
pub struct Fields<'a> {
    left: &'a [u8],
}

impl<'a> Fields<'a> {
    pub fn new(bytes: &'a [u8]) -> Fields<'a> {
        Fields { left: bytes }
    }

    /// The next so many bytes, if there are as many.
    pub fn bytes(&mut self, len: usize) -> Option<&'a [u8]> {
        let (front, left) = self.left.split_at_checked(len)?;
        self.left = left;
        Some(front)
    }

    fn array<const N: usize>(&mut self) -> Option<[u8; N]> {
        self.bytes(N)?.try_into().ok()
    }

    /// A Char, or a Byte.
    pub fn byte(&mut self) -> Option<u8> {
        self.array::<1>().map(|[byte]| byte)
    }

    pub fn chars<const N: usize>(&mut self) -> Option<[u8; N]> {
        self.array()
    }

    pub fn short(&mut self) -> Option<u16> {
        self.array().map(u16::from_be_bytes)
    }

    pub fn integer(&mut self) -> Option<u32> {
        self.array().map(u32::from_be_bytes)
    }

    pub fn long(&mut self) -> Option<u64> {
        self.array().map(u64::from_be_bytes)
    }

    /// What is left.
    pub fn rest(self) -> &'a [u8] {
        self.left
    }
}
