//! The numbers by which things are named.
use std::fmt;

macro_rules! ids {
    ($($(#[$doc:meta])* $name:ident($number:ty);)*) => {
        $(
            $(#[$doc])*
            #[derive(Clone, Copy, PartialEq, Eq, PartialOrd, Ord, Hash, Debug)]
            pub struct $name($number);

            impl $name {
                /// The thing that has this number. A call on one that is not there is refused.
                pub const fn new(number: $number) -> $name {
                    $name(number)
                }

                /// The number.
                pub const fn number(self) -> $number {
                    self.0
                }
            }

            impl fmt::Display for $name {
                fn fmt(&self, f: &mut fmt::Formatter<'_>) -> fmt::Result {
                    self.0.fmt(f)
                }
            }
        )*
    };
}

ids! {
    /// A domain, from 1: a program with its own descriptors and aggregates.
    DomainId(u32);
    /// A pool of pages, from 1, with the list of domains that may read what is in it.
    PoolId(u32);
    /// A file, from 1.
    FileId(u32);
    /// A connection, from 1.
    ConnId(u32);
    /// A descriptor of a domain, from 0.
    Fd(u32);
    /// An aggregate of a domain, from 1: a string of bytes that does not change.
    AggId(u64);
}

impl DomainId {
    /// The domain that a new system has.
    pub const FIRST: DomainId = DomainId(1);
}
