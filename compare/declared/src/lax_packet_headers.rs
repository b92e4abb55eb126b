//! ABSENT: the ICMPv6 part names nothing of it.
