//! Reads survey text on standard input and writes contour text on standard output, over the mesh of kind 0.

fn main() {
    second::run(second::program, second::SWEPT);
}
