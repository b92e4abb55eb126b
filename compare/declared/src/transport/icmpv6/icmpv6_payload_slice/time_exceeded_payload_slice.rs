crate::absent_slice!(TimeExceededPayloadSlice, crate::err::LenError);

impl<'a> TimeExceededPayloadSlice<'a> {
    pub fn slice(&self) -> &'a [u8] {
        match self.never {}
    }
}
