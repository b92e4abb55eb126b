crate::absent_slice!(PacketTooBigPayloadSlice, crate::err::LenError);

impl<'a> PacketTooBigPayloadSlice<'a> {
    pub fn slice(&self) -> &'a [u8] {
        match self.never {}
    }
}
