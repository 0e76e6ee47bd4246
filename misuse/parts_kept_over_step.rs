// over: iol_core iol_agg iol_back iol_system
//! Parts of an aggregate that are kept over the next step.
#![tactic(auto)]

use iol_back::backing::Backing;
use iol_core::events::Event;
use iol_core::numbers::{AggId, DomainId};
use iol_system::system::System;

pub fn kept_over_step<B: Backing>(
    system: &mut System<B>,
    by: DomainId,
    agg: AggId,
    event: Event,
) -> usize {
    match system.parts(by, agg) {
        Ok(parts) => {
            let _ = system.step(event); //~ borrow-e0502
            parts.count()
        }
        Err(_) => 0,
    }
}
