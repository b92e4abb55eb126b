crate::absent_header!(DestUnreachableCode);

impl DestUnreachableCode {
    pub fn from_u8(_: u8) -> Option<Self> {
        crate::absent!("DestUnreachableCode")
    }
    pub fn code_u8(&self) -> u8 {
        match *self {}
    }
}
