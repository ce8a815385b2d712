//! The program of the paper, from standard input to standard output.

fn main() -> std::io::Result<()> {
    second::stdio::filter(second::job::run)
}
