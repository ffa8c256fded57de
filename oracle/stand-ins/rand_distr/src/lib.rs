//! Stands in for rand_distr, which `Penelope::random` of the published quotes names; it is not called here.

pub struct Uniform;

impl Uniform {
    pub fn new(_low: f64, _high: f64) -> Uniform {
        Uniform
    }
}

pub trait Distribution {
    fn sample<R>(&self, rng: &mut R) -> f64;
}

impl Distribution for Uniform {
    fn sample<R>(&self, _rng: &mut R) -> f64 {
        unreachable!("no random quotes are made here")
    }
}
