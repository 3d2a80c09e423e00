//! Stands for the original's `utils`, of which only the list is used.

pub mod linked_list;
