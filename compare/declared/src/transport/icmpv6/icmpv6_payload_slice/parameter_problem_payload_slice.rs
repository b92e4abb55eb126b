crate::absent_slice!(ParameterProblemPayloadSlice, crate::err::LenError);

impl<'a> ParameterProblemPayloadSlice<'a> {
    pub fn slice(&self) -> &'a [u8] {
        match self.never {}
    }
}
