// over: iol_core iol_agg iol_back iol_system iol_proc
//! A look that is kept over the next step.
#![tactic(auto)]

use iol_back::backing::Backing;
use iol_core::events::Event;
use iol_core::numbers::{AggId, DomainId};
use iol_proc::process::Process;
use iol_proc::world::World;

pub fn kept_over_step<B: Backing + Drop, P: Process>(
    world: &mut World<B, P>,
    by: DomainId,
    agg: AggId,
    event: Event,
) -> bool {
    let look = world.look(by);
    let _ = world.step_outside(event); //~ borrow-e0502
    look.bytes(agg).is_some()
}
