//! The menus of rows, with the stores that boot them, and what a boot ended in.

pub mod boot_end;
pub mod boot_fields;
pub mod dry_store;
pub mod memory_after;
pub mod script_store;
