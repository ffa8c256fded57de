//! Stands in for rotala-http: the published broker's way to its exchange, here in the same process.

pub mod http {
    pub mod uist_v1;
}
