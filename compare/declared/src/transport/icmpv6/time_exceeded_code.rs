crate::absent_header!(TimeExceededCode);

impl TimeExceededCode {
    pub fn from_u8(_: u8) -> Option<Self> {
        crate::absent!("TimeExceededCode")
    }
    pub fn code_u8(&self) -> u8 {
        match *self {}
    }
}
