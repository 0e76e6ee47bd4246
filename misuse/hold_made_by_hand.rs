// over: iol_core iol_hold
//! A hold comes from the store alone, which counts it.
#![tactic(auto)]

use iol_core::numbers::{BufId, PoolId};
use iol_hold::Hold;

pub fn makes(pool: PoolId, buf: BufId) -> Hold {
    Hold { pool, buf } //~ private-field
}
