crate::absent_header!(NeighborAdvertisementHeader);

impl NeighborAdvertisementHeader {
    pub fn from_bytes(_: [u8; 4]) -> Self {
        crate::absent!("NeighborAdvertisementHeader")
    }
    pub fn to_bytes(&self) -> [u8; 4] {
        match *self {}
    }
}
