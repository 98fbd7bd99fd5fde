//! The programs on many inputs, against the second implementation, and where reading or writing
//! fails. `.ci/build NAME` puts them in target/bin.

#[path = "programs/arguments.rs"]
mod arguments;
#[path = "programs/failing.rs"]
mod failing;
#[path = "programs/feed.rs"]
mod feed;
#[path = "programs/filters.rs"]
mod filters;
#[path = "programs/sinkshow.rs"]
mod sinkshow;
