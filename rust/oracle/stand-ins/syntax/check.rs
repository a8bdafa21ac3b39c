// Stand-in: the oracle needs nothing of this module. It is a door to toposort.rs,
// which is private to syntax.

pub(crate) use super::toposort::sort;
