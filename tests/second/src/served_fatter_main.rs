//! Reads survey text on standard input and writes the report of its served ground on standard output, over the mesh of
//! kind 1.

fn main() {
    second::run(second::report, second::FATTER);
}
