crate::absent_slice!(PrefixInformationOptionSlice, crate::icmpv6::NdpOptionReadError);

impl<'a> PrefixInformationOptionSlice<'a> {
    pub fn as_bytes(&self) -> &'a [u8] {
        match self.never {}
    }
    pub fn option_type(&self) -> crate::icmpv6::NdpOptionType {
        match self.never {}
    }
}
