#![no_main]

fuzz::target!(fuzz::counts);
