//! Ours against plain Rust, in one run: the same buffers, the two sides in turn, the best of many rounds.
mod bare;
mod boxes;
mod buffers;
mod bytes;
mod clock;
mod leaves;
mod plain;
mod scroll;

fn main() {
    match std::env::args().nth(1).as_deref() {
        None => {
            clock::head();
            leaves::rows();
            boxes::rows();
            scroll::rows();
        }
        Some("scroll") => scroll::rows(),
        Some(other) => {
            eprintln!("bench: there is `scroll`, and no `{other}`");
            std::process::exit(2);
        }
    }
}
