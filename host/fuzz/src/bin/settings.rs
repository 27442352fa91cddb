#![no_main]

fuzz::target!(fuzz::settings);
