//! sqlx-sqlite's `explain`, unchanged, between stubs. Its text is not here: build.rs takes it from the folder
//! ORACLE_SRC.

mod branch_result;
pub mod connection;
pub mod error;
pub mod folder;
pub mod from_row;
#[cfg(feature = "judged")]
pub mod judge;
#[cfg(feature = "judged")]
#[path = "judged_logger.rs"]
pub mod logger;
#[cfg(not(feature = "judged"))]
#[allow(dead_code)]
#[path = "silent_logger.rs"]
pub mod logger;
pub mod text;

include!(concat!(env!("OUT_DIR"), "/root.rs"));
include!(concat!(env!("OUT_DIR"), "/operations.rs"));
pub use type_info::SqliteTypeInfo;

impl SqliteTypeInfo {
    /// The name of the kind's variant.
    pub fn kind(&self) -> String {
        format!("{:?}", self.0)
    }
}
