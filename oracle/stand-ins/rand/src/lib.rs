//! Stands in for rand, which `Penelope::random` of the published quotes names; it is not called here.

pub struct ThreadRng;

pub fn thread_rng() -> ThreadRng {
    unreachable!("no random quotes are made here")
}
