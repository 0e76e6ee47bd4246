// over: iol_core iol_hold
//! A hold that was given up is gone.
#![tactic(auto)]

use iol_hold::{Hold, Store};

pub fn releases_twice(store: &mut Store, hold: Hold) {
    store.release(hold);
    store.release(hold); //~ borrow-e0382
}

pub fn reads_later(store: &mut Store, hold: Hold) -> u32 {
    store.release(hold);
    store.len(&hold) //~ borrow-e0382
}
