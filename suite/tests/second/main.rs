//! The second node by itself, held against the sentences of 01 as 2026-01 to 2026-03 amend it.
mod anything;
mod bench;
mod bench_lines;
mod busy_marks;
mod commands;
mod curves;
mod error_order;
mod functions;
mod groups;
mod lengths;
mod limits;
mod old_errors;
mod packets;
mod stores_and_readings;
mod sums;
