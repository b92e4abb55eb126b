//! DECLARED: the error types, with the fields and variants that the excerpt itself fills in. No behaviour.

/// Stops a call that has come to a file which the excerpt does not have. The message begins with `absent` and names what was reached.
#[macro_export]
macro_rules! absent {
    ($what:expr) => {
        core::panic!("absent {}", $what)
    };
    ($what:expr, $slice:expr) => {
        core::panic!("absent {} {}", $what, $slice.len())
    };
}

/// ABSENT: a borrowed part of a packet whose own file is not there. It cannot be made; its reader stops, and tells the length that it was given.
#[macro_export]
macro_rules! absent_slice {
    ($name:ident, $error:ty) => {
        #[derive(Clone, Debug, Eq, PartialEq)]
        pub struct $name<'a> {
            never: core::convert::Infallible,
            slice: &'a [u8],
        }

        impl<'a> $name<'a> {
            pub fn from_slice(slice: &'a [u8]) -> Result<Self, $error> {
                $crate::absent!(stringify!($name), slice)
            }
        }
    };
}

/// ABSENT: a header whose own file is not there. It has no value; what would read one stops.
#[macro_export]
macro_rules! absent_header {
    ($name:ident) => {
        #[derive(Clone, Copy, Debug, PartialEq, Eq, Ord, PartialOrd, Hash)]
        pub enum $name {}
    };
}

#[derive(Clone, Debug, Eq, PartialEq)]
pub struct LenError {
    pub required_len: usize,
    pub len: usize,
    pub len_source: crate::LenSource,
    pub layer: Layer,
    pub layer_start_offset: usize,
}

#[derive(Clone, Debug, Eq, PartialEq)]
pub enum Layer {
    Icmpv6,
}

#[derive(Clone, Debug, Eq, PartialEq)]
pub struct ValueTooBigError<T> {
    pub actual: T,
    pub max_allowed: T,
    pub value_type: ValueType,
}

#[derive(Clone, Debug, Eq, PartialEq)]
pub enum ValueType {
    Icmpv6PayloadLength,
}
