#![doc = include_str!("../README.md")]
#![warn(missing_docs)]

mod domain;
mod ffi;
mod ids;
mod parts;
mod refusal;
mod streams;
mod system;

pub use domain::Domain;
pub use ids::{AggId, ConnId, DomainId, Fd, FileId, PoolId};
pub use parts::Parts;
pub use refusal::Refusal;
pub use streams::{Reader, Writer};
pub use system::{Arrived, Drained, How, Mode, PoolReport, Report, Sizes, System};

/// The result of a call.
pub type Result<T> = std::result::Result<T, Refusal>;
