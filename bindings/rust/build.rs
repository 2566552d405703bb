// Tells the linker where libfeed_abi.a is: in the folder FEED_ABI_DIR, or where bindings/archive writes it.
use std::env;
use std::path::Path;
use std::process;

fn main() {
    let written = concat!(env!("CARGO_MANIFEST_DIR"), "/../../target/staticlib");
    let dir = env::var("FEED_ABI_DIR").unwrap_or_else(|_| written.to_string());
    println!("cargo:rerun-if-env-changed=FEED_ABI_DIR");
    println!("cargo:rerun-if-changed={dir}/libfeed_abi.a");
    println!("cargo:rustc-link-search=native={dir}");
    if !Path::new(&dir).join("libfeed_abi.a").is_file() {
        eprintln!("there is no libfeed_abi.a in {dir}");
        eprintln!("bindings/archive proves and builds it, as target/staticlib/libfeed_abi.a;");
        eprintln!("FEED_ABI_DIR names another folder that has it");
        process::exit(1);
    }
}
