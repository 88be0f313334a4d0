//! Stand-in: the stream messages never use it.

pub trait Encode7Bit {}
