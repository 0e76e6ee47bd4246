// over: iol_core iol_arena
//! Once published, buffers never change.
#![tactic(auto)]

use iol_arena::filling::Filling;

pub fn writes_later(filling: Filling<'_>) {
    let mut filling = filling;
    let _bufs = filling.publish(1);
    filling.part_mut(0)[0] = 1; //~ borrow-e0382
}

pub fn publishes_twice(filling: Filling<'_>) {
    let _bufs = filling.publish(1);
    let _more = filling.publish(1); //~ borrow-e0382
}

pub fn keeps_the_part(filling: Filling<'_>) {
    let mut filling = filling;
    let part = filling.part_mut(0);
    let _bufs = filling.publish(1); //~ borrow-e0505
    part[0] = 1;
}
