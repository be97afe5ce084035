//! Presents what lldpa-live answers: the table of neighbors, a line for each change, metrics for
//! Prometheus, and why a command is refused. The functions take the lines of `show neighbors`, `show
//! statistics`, `show configuration` and `live`, and do nothing but return texts.
#![forbid(unsafe_code)]

pub mod answers;
pub mod arguments;
pub mod changes;
pub mod client;
pub mod columns;
pub mod connection;
pub mod counters;
pub mod details;
pub mod interfaces;
pub mod json;
mod letters;
pub mod live_lines;
mod live_metrics;
pub mod lldpcli;
pub mod lldpd;
pub mod metrics;
pub mod neighbors;
pub mod node;
pub mod objects;
pub mod ordered;
pub mod organizational;
mod record;
pub mod refused;
pub mod settings;
pub mod show;
mod show_reader;
pub mod table;
pub mod texts;
pub mod times;
mod watching;
