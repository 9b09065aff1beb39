//! Stand-in: no call that is compared uses it.

pub struct Write;
