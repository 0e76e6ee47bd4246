// over: iol_core iol_arena
//! While buffers are being filled, nobody else touches the arena.
#![tactic(auto)]

use iol_arena::arena::Arena;
use iol_arena::chunks::ChunkSet;
use iol_arena::pages::Unfilled;
use iol_core::numbers::BufId;
use std::alloc::Global;

pub fn frees(alloc: Global, arena: &mut Arena, chunks: &ChunkSet, buf: BufId) -> Result<(), Unfilled> {
    let filling = arena.begin(alloc, chunks, 1)?;
    arena.free(buf); //~ borrow-e0499
    filling.abandon();
    Ok(())
}

pub fn reads(alloc: Global, arena: &mut Arena, chunks: &ChunkSet, buf: BufId) -> Result<(), Unfilled> {
    let filling = arena.begin(alloc, chunks, 1)?;
    let _len = arena.len(buf); //~ borrow-e0502
    filling.abandon();
    Ok(())
}
