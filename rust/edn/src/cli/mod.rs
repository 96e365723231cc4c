//! What the command line is made of, beside the commands themselves.
pub mod arguments;
pub mod attributes;
pub mod beside;
pub mod c;
pub mod destination;
pub mod held;
pub mod hidden;
pub mod identity;
pub mod lock;
pub mod look;
pub mod shell;
pub mod show;
pub mod source;
pub mod standard;
pub mod stop;
