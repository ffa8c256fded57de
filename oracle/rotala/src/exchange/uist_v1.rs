// The published exchange, included as it is, and functions beside it that read its private fields.

include!("../../../published/rotala/src/exchange/uist_v1.rs");

/// The waiting orders, in order of taking.
pub fn waiting(exchange: &UistV1) -> &[Order] {
    &exchange.order_buffer
}

/// The resting orders in book order; each has its number in `order_id`.
pub fn resting(exchange: &UistV1) -> impl Iterator<Item = &Order> {
    exchange.orderbook.inner.iter()
}
