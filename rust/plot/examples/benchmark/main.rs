//! Times of the library over times of the reference, both in the same run:
//! `cargo run --release -p plot --example benchmark`.

mod cases;
mod rows;
mod runs;
mod timing;

fn main() {
    println!(
        "{:<40} {:>12} {:>12} {:>7} {:>8}",
        "", "library", "reference", "ratio", "at most"
    );
    for row in rows::rows().into_iter().chain(runs::rows()) {
        timing::print(row);
    }
    runs::print_messages_over_direct();
    runs::print_pairs();
}
