#![no_main]

fuzz::target!(fuzz::message);
