#![no_main]

fuzz::target!(fuzz::state);
