// over: iol_core iol_hold
//! One more hold comes from the store alone, which counts it.
#![tactic(auto)]

use iol_hold::Hold;

pub fn clones(hold: &Hold) -> Hold {
    hold.clone() //~ unsupported-method
}
