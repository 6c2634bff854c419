//! The call that finds a name, as values: what goes in, what comes out, and who
//! can be asked.
//!
//! The struct with `repr(C)` is that of `include/lanolin.h`. Its mark is a byte, as
//! a record's are.
//!
//! Assumes nothing.

use super::Fetch;

/// `lanolin_named`.
#[repr(C)]
#[derive(Clone, Copy, Debug, PartialEq, Eq)]
pub struct Named {
    pub result: i32,
    pub found: u8,
    pub id: u32,
}

impl Named {
    pub fn at(id: u32) -> Named {
        Named {
            result: 0,
            found: 1,
            id,
        }
    }

    pub fn none() -> Named {
        Named::refused(0)
    }

    /// Nothing is found, and this is why.
    pub fn refused(result: i32) -> Named {
        Named {
            result,
            found: 0,
            id: 0,
        }
    }
}

/// What a fetch takes, the rules, and the name with its type.
#[derive(Clone, Copy)]
pub struct Find<'a> {
    pub fetch: Fetch<'a>,
    /// `DOCUMENT` or `LITTLEFS`; any other number is -22.
    pub rules: u32,
    pub name: &'a [u8],
    pub type_: u32,
}

/// Who answers the call: the port, or the second implementation.
pub trait Finds {
    fn find(&self, input: &Find) -> Named;
}
