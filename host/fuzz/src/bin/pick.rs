#![no_main]

fuzz::target!(fuzz::pick);
