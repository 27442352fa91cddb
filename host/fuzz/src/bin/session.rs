#![no_main]

fuzz::target!(fuzz::session);
