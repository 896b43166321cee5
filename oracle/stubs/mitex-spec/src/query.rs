//! Stands for the reader of specifications as JSON. lib.rs gives its type another name.

pub struct CommandSpecRepr;
