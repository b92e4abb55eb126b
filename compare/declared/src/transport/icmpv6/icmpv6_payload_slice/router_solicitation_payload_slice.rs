crate::absent_slice!(RouterSolicitationPayloadSlice, crate::err::LenError);

impl<'a> RouterSolicitationPayloadSlice<'a> {
    pub fn slice(&self) -> &'a [u8] {
        match self.never {}
    }
    pub fn to_payload(&self) -> (core::convert::Infallible, &'a [u8]) {
        match self.never {}
    }
}
