//! Writes the answers of a running lldpa-live as lldpcli 1.0.16 does: `words` reads the commands, `trees`
//! builds trees of nodes, and `forms` writes them. docs/LLDPD.md lists what differs.

mod console;
pub mod forms;
pub mod program;
pub mod trees;
pub mod words;
