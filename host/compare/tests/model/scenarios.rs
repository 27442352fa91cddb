//! The scenarios, with units of the model.

compare::scenarios!(compare::units::modelled);
