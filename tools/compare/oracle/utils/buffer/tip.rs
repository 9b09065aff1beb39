//! Stand-in: the buffer of a blob without pages. No call that is compared uses it.
