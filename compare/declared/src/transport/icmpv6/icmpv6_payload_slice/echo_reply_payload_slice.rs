crate::absent_slice!(EchoReplyPayloadSlice, crate::err::LenError);

impl<'a> EchoReplyPayloadSlice<'a> {
    pub fn slice(&self) -> &'a [u8] {
        match self.never {}
    }
}
