crate::absent_slice!(EchoRequestPayloadSlice, crate::err::LenError);

impl<'a> EchoRequestPayloadSlice<'a> {
    pub fn slice(&self) -> &'a [u8] {
        match self.never {}
    }
}
