//! DECLARED: the modules of the excerpt below this folder.

pub mod icmpv6;

mod icmpv6_header;
pub use icmpv6_header::*;

mod icmpv6_slice;
pub use icmpv6_slice::*;

mod icmpv6_type;
pub use icmpv6_type::*;

mod icmp_echo_header;
pub use icmp_echo_header::*;
