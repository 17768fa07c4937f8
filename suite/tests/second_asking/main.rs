//! The second asking side, held against 2026-04 and the sentences of 01.
mod answers;
mod anything;
mod board;
mod gateway;
mod learning;
mod limits;
mod lists;
mod numbers;
mod refusals;
mod requests;
mod with_a_node;
