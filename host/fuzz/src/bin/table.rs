#![no_main]

fuzz::target!(fuzz::table);
