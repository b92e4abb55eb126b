//! DECLARED: the fixed parts as the excerpt fills them in, and the two lengths that it names, by docs/RULES.md H3
//! (8 bytes for 134, 32 for 137). ABSENT: the fixed parts of 133, 135 and 136, which have no value.

use core::net::Ipv6Addr;

#[derive(Clone, Debug, Eq, PartialEq)]
pub enum Icmpv6Payload {
    RouterSolicitation(core::convert::Infallible),
    RouterAdvertisement(RouterAdvertisementPayload),
    NeighborSolicitation(core::convert::Infallible),
    NeighborAdvertisement(core::convert::Infallible),
    Redirect(RedirectPayload),
}

#[derive(Clone, Debug, Eq, PartialEq)]
pub struct RouterAdvertisementPayload {
    pub reachable_time: u32,
    pub retrans_timer: u32,
}

impl RouterAdvertisementPayload {
    pub const LEN: usize = 8;
}

#[derive(Clone, Debug, Eq, PartialEq)]
pub struct RedirectPayload {
    pub target_address: Ipv6Addr,
    pub destination_address: Ipv6Addr,
}

impl RedirectPayload {
    pub const LEN: usize = 32;
}
