//! Refuses to build where a published file is not the published one.

#[path = "published.rs"]
mod published;

fn main() {
    println!("cargo:rerun-if-changed=published.rs");
    for (name, _) in published::FILES {
        println!("cargo:rerun-if-changed={name}");
    }
    let here = std::env::var("CARGO_MANIFEST_DIR").expect("cargo names the folder");
    if let Err(why) = published::check(std::path::Path::new(&here)) {
        panic!("{why}");
    }
}
