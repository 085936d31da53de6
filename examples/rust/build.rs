//! Links libshelf_c.a, as `rt lib` leaves it, and the kit's memory calls: `KIT` names the kit's folder.
fn main() {
    let kit = std::env::var("KIT").expect("KIT is the folder of the Rattle kit");
    println!("cargo::rerun-if-env-changed=KIT");
    println!("cargo::rustc-link-search=native=../../crates/shelf_c/out");
    println!("cargo::rustc-link-search=native={kit}/c");
    println!("cargo::rustc-link-lib=static=shelf_c");
    println!("cargo::rustc-link-lib=static=libc_c");
}
