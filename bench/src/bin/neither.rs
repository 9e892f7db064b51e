//! A program with neither implementation: what the two others are measured against.

fn main() {
    std::hint::black_box(std::env::args().count());
}
