mod link;

fn main() {
    println!("cargo:rerun-if-changed=link.rs");
    link::archive("thawpebble");
}
