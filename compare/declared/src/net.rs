//! DECLARED: the number of ICMPv6 among the protocols (docs/RULES.md S2). It is named after the sum has stopped only.

pub mod ip_number {
    pub struct IpNumber(pub u8);
    pub const IPV6_ICMP: IpNumber = IpNumber(58);
}
