//! Links the proved archive and the C reference, which bench/run builds first.

fn main() {
    let folder = std::env::var("BENCH_LIBRARIES").expect("bench/run names the folder of the two archives");
    println!("cargo::rerun-if-env-changed=BENCH_LIBRARIES");
    for name in ["bench_calls", "reference"] {
        println!("cargo::rerun-if-changed={folder}/lib{name}.a");
        println!("cargo::rustc-link-lib=static={name}");
    }
    println!("cargo::rustc-link-search=native={folder}");
}
