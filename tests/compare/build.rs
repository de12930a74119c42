#[path = "../../rust/thawpebble/link.rs"]
mod link;

fn main() {
    println!("cargo:rerun-if-changed=../../rust/thawpebble/link.rs");
    link::archive("parts");
}
