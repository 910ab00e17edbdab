//! The names of sqlx-core that the original's three files use.

mod map;
pub use map::HashMap;
pub use std::collections::hash_map;

pub mod sql_str {
    pub struct AssertSqlSafe<T>(pub T);

    /// A query's text tells which of the two queries is asked.
    pub trait SqlSafeStr {
        fn text(&self) -> &str;
    }

    impl SqlSafeStr for &'static str {
        fn text(&self) -> &str {
            self
        }
    }

    impl SqlSafeStr for AssertSqlSafe<String> {
        fn text(&self) -> &str {
            &self.0
        }
    }
}

pub mod type_info {
    use std::fmt::{Debug, Display};

    pub trait TypeInfo: Clone + Debug + Display + PartialEq + Send + Sync {
        fn is_null(&self) -> bool;
        fn name(&self) -> &str;
    }
}

pub enum Either<L, R> {
    Left(L),
    Right(R),
}

impl<L, R> Either<L, R> {
    pub fn right(self) -> Option<R> {
        match self {
            Either::Right(r) => Some(r),
            Either::Left(_) => None,
        }
    }
}
