#![no_main]

fuzz::target!(fuzz::salvage);
