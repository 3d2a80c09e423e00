//! Stands for the original's `start`. Its init function runs before `main` here too, but the C
//! library passes no auxiliary vector, so the pointer is not read and the bytes are fixed.

pub mod auxiliary_vector {
    pub struct AuxiliaryVectorItem;

    pub struct AuxiliaryVectorInfo {
        pub pseudorandom_bytes: &'static [u8; 16],
    }

    impl AuxiliaryVectorInfo {
        pub fn new(_items: *const AuxiliaryVectorItem) -> Option<Self> {
            Some(Self {
                pseudorandom_bytes: &[1; 16],
            })
        }
    }
}
