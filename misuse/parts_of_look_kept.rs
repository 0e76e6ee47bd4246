// over: iol_core iol_agg iol_back iol_system iol_proc
//! Parts that a process keeps beyond its turn.
#![tactic(auto)]

ghost use Rattle.iol_core.specs.declared.events.Reply.{Reply};
ghost use Rattle.iol_proc.specs.declared.process.Turn.{Turn};

use iol_agg::Parts;
use iol_core::events::Reply;
use iol_core::numbers::AggId;
use iol_proc::look::Look;
use iol_proc::process::{Process, Turn};
use std::alloc::AllocError;

#[derive(Drop)]
pub struct Keeper<'a> {
    kept: Option<Parts<'a>>,
}

impl<'a> Process for Keeper<'a> {
    ghost turns = { record { goes = λ before last lent turn now. Unit {0}; may_want = λ before last lent. ⊥ } };

    fn next(&mut self, _last: &Reply, look: &Look<'_>) -> Result<Turn, AllocError> {
        self.kept = look.bytes(AggId::new(1)); //~ borrow-lifetime
        Ok(Turn::Yield)
    }
}
