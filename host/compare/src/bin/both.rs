//! How many exchanges pairs of ends took that both have news: `both COUNT [SEED]`.

use compare::inputs::Random;
use compare::units::proved;
use compare::walk::both::{compare_talks, Exchanges};

fn main() {
    let words: Option<Vec<u64>> = std::env::args()
        .skip(1)
        .map(|word| word.parse().ok())
        .collect();
    let (count, seed) = match words.as_deref() {
        Some([count]) => (*count, 0),
        Some([count, seed]) => (*count, *seed),
        _ => panic!("how many pairs is wanted, and perhaps a seed"),
    };
    let (mut random, mut exchanges) = (Random(seed), Exchanges::default());
    for _ in 0..count {
        let news = random.news();
        exchanges.count(&compare_talks(proved, &news));
    }
    let (talks, left_out) = (exchanges.talks(), exchanges.left_out);
    println!("{count} pairs: {talks} by list, {left_out} left out");
    print!("{exchanges}");
}
