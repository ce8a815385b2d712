//! The mending program of request 1, from standard input to standard output.

fn main() -> std::io::Result<()> {
    second::stdio::filter(second::mendjob::run)
}
