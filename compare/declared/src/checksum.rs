//! ABSENT: the sum. `new` stops, so nothing after it is reached.

pub struct Sum16BitWords {
    never: core::convert::Infallible,
}

impl Sum16BitWords {
    #[allow(clippy::new_without_default)]
    pub fn new() -> Self {
        crate::absent!("checksum")
    }
    pub fn add_2bytes(&self, _: [u8; 2]) -> Self {
        match self.never {}
    }
    pub fn add_4bytes(&self, _: [u8; 4]) -> Self {
        match self.never {}
    }
    pub fn add_16bytes(&self, _: [u8; 16]) -> Self {
        match self.never {}
    }
    pub fn add_slice(&self, _: &[u8]) -> Self {
        match self.never {}
    }
    pub fn ones_complement(&self) -> u16 {
        match self.never {}
    }
}
