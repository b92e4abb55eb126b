crate::absent_header!(IcmpEchoHeader);

impl IcmpEchoHeader {
    pub fn from_bytes(_: [u8; 4]) -> Self {
        crate::absent!("IcmpEchoHeader")
    }
    pub fn to_bytes(&self) -> [u8; 4] {
        match *self {}
    }
}
