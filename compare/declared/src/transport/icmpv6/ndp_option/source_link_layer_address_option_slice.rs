crate::absent_slice!(SourceLinkLayerAddressOptionSlice, crate::icmpv6::NdpOptionReadError);

impl<'a> SourceLinkLayerAddressOptionSlice<'a> {
    pub fn as_bytes(&self) -> &'a [u8] {
        match self.never {}
    }
    pub fn option_type(&self) -> crate::icmpv6::NdpOptionType {
        match self.never {}
    }
}
