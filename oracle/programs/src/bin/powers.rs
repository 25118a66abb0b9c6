//! Prints the entries of the added exp2, worked out by whole numbers.

fn main() {
    for entry in 0..=256 {
        println!("E({entry}) {}", ruled::powers::power(entry));
    }
}
