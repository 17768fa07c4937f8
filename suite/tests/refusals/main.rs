//! Every way 01 names in which what is lent can be wrong, for each entry that looks at it: the refusal's number, and nothing lent is
//! changed. Each is refused for that reason only: without it, the same call is accepted.
mod calls;
mod order;
mod packets;
mod results_and_stores;
mod tables;
