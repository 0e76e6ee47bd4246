// over: iol_core iol_hold
//! A slice that was given up or cut is gone.
#![tactic(auto)]

use iol_hold::{Slice, Store};

pub fn reads_later(store: &mut Store, slice: Slice) -> usize {
    slice.release(store);
    slice.bytes(store).len() //~ borrow-e0382
}

pub fn cuts_twice(slice: Slice) -> Slice {
    let _first = slice.cut(0, 1);
    slice.cut(1, 2) //~ borrow-e0382
}
