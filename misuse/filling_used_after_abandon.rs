// over: iol_core iol_arena
//! What was abandoned is gone.
#![tactic(auto)]

use iol_arena::filling::Filling;

pub fn publishes_later(filling: Filling<'_>) {
    filling.abandon();
    let _bufs = filling.publish(1); //~ borrow-e0382
}

pub fn abandons_twice(filling: Filling<'_>) {
    filling.abandon();
    filling.abandon(); //~ borrow-e0382
}
