//! The tests of the command: it is run as a program, on recordings that they write.

mod allowance;
mod checkpoints;
mod commands;
mod damage;
mod picture;
mod router;
mod support;
