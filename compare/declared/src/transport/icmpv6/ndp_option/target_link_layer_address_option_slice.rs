crate::absent_slice!(TargetLinkLayerAddressOptionSlice, crate::icmpv6::NdpOptionReadError);

impl<'a> TargetLinkLayerAddressOptionSlice<'a> {
    pub fn as_bytes(&self) -> &'a [u8] {
        match self.never {}
    }
    pub fn option_type(&self) -> crate::icmpv6::NdpOptionType {
        match self.never {}
    }
}
