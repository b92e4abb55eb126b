crate::absent_header!(ParameterProblemCode);

impl ParameterProblemCode {
    pub fn from_u8(_: u8) -> Option<Self> {
        crate::absent!("ParameterProblemCode")
    }
    pub fn code_u8(&self) -> u8 {
        match *self {}
    }
}
