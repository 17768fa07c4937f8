//! The proved library against an independent second node, and its laws on compiled code.
//!
//! The page in web/ takes whatif and the cases from here as WebAssembly, where there are no guard pages, processes or arguments.
pub mod boards;
pub mod cases;
#[cfg(not(target_arch = "wasm32"))]
pub mod differ;
#[cfg(not(target_arch = "wasm32"))]
pub mod differ_asking;
pub mod faults;
#[cfg(not(target_arch = "wasm32"))]
pub mod guard;
pub mod lent;
pub mod measured;
#[cfg(not(target_arch = "wasm32"))]
pub mod measured_asking;
pub mod packets;
pub mod random;
pub mod records;
#[cfg(not(target_arch = "wasm32"))]
pub mod run;
pub mod second;
pub mod second_asking;
pub mod second_lent;
#[cfg(not(target_arch = "wasm32"))]
pub mod timed;
pub mod whatif;
