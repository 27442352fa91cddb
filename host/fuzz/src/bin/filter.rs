#![no_main]

fuzz::target!(fuzz::filter);
