//! Prints the C header of the exported functions and the limits.

fn main() {
    print!("{}", bisquetower::raw::HEADER);
}
