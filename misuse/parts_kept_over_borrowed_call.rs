// over: iol_core iol_agg iol_back iol_system
//! Parts of an aggregate that are kept while a connection is served in place.
#![tactic(auto)]

use iol_back::backing::Backing;
use iol_core::numbers::{AggId, ConnId, DomainId};
use iol_system::system::System;
use std::io::{Read, Write};

pub fn kept_over_read<B: Backing, R: Read>(
    system: &mut System<B>,
    by: DomainId,
    agg: AggId,
    conn: ConnId,
    reader: &mut R,
) -> usize {
    match system.parts(by, agg) {
        Ok(parts) => {
            let _ = system.arrive_from(conn, reader, 1); //~ borrow-e0502
            parts.count()
        }
        Err(_) => 0,
    }
}

pub fn kept_over_write<B: Backing, W: Write>(
    system: &mut System<B>,
    by: DomainId,
    agg: AggId,
    conn: ConnId,
    writer: &mut W,
) -> usize {
    match system.parts(by, agg) {
        Ok(parts) => {
            let _ = system.drain_to(conn, writer, 1); //~ borrow-e0502
            parts.count()
        }
        Err(_) => 0,
    }
}
