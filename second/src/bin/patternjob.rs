//! The pattern program of request 7, from standard input to standard output.

fn main() -> std::io::Result<()> {
    second::stdio::filter(second::patternjob::run)
}
