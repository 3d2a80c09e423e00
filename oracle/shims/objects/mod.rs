//! Stands for the original's `objects`: the type of an entry of the init array.

pub mod strategies {
    pub mod init_and_fini_array {
        use crate::start::auxiliary_vector::AuxiliaryVectorItem;

        pub type InitArrayFunction =
            extern "C" fn(usize, *const *const u8, *const *const u8, *const AuxiliaryVectorItem);
    }
}
