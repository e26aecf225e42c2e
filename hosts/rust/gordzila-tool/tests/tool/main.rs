//! Tests of the tool as others use it: by its words, files, outputs and exit status.

mod block_zero;
mod cipher;
mod converting;
mod grants;
mod lives;
mod pages;
mod queues;
mod rolls;
mod running;
mod usage;
mod walks;
mod writing;
