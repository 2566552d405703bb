// Tells the linker where librows.a is, the sides in C: bench/run builds it in the folder BENCH_DIR.
use std::env;

fn main() {
    println!("cargo:rerun-if-env-changed=BENCH_DIR");
    let dir = env::var("BENCH_DIR").expect("bench/run sets BENCH_DIR, the folder of librows.a");
    println!("cargo:rerun-if-changed={dir}/librows.a");
    println!("cargo:rustc-link-search=native={dir}");
}
