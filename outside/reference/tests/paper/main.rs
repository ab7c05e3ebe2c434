//! The reference against documents 01 and 02, paragraph by paragraph.

mod detail;
mod factors;
mod hand;
mod listed;
mod numbers;
mod order;
mod refusals;
mod rooms;
mod rounding;
mod rules;
mod running;
mod stored;
