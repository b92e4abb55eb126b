crate::absent_slice!(DestinationUnreachablePayloadSlice, crate::err::LenError);

impl<'a> DestinationUnreachablePayloadSlice<'a> {
    pub fn slice(&self) -> &'a [u8] {
        match self.never {}
    }
}
