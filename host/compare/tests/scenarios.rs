//! The scenarios that sync suites are known for, with units of the library beside the
//! crate's. `compare::scenarios` has them.

compare::scenarios!(compare::units::proved);
