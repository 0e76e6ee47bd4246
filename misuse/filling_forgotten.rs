// over: iol_core iol_arena
//! New buffers that are begun are published or abandoned.
#![tactic(auto)]

use iol_arena::arena::Arena;
use iol_arena::chunks::ChunkSet;
use iol_arena::filling::Filling;
use iol_arena::pages::Unfilled;
use std::alloc::Global;

pub fn forgets(alloc: Global, arena: &mut Arena, chunks: &ChunkSet) -> Result<(), Unfilled> {
    let _filling = arena.begin(alloc, chunks, 1)?; //~ linear-value-let-go
    Ok(())
}

pub fn forgets_one_way(filling: Filling<'_>, wanted: bool) {
    if wanted { //~ linear-value-let-go
        filling.abandon();
    }
}
