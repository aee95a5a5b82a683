//! Links the port's workloads: BESIDE_BENCH is the folder of libbench_times.a, which beside/bench makes; RATTLE_KIT that of the toolchain's kit,
//! whose calls of malloc are linked unless memory is counted.

fn main() {
    println!("cargo:rerun-if-env-changed=BESIDE_BENCH");
    let folder = std::env::var("BESIDE_BENCH").expect("BESIDE_BENCH");
    println!("cargo:rerun-if-changed={folder}/libbench_times.a");
    println!("cargo:rustc-link-search=native={folder}");
    println!("cargo:rustc-link-lib=static=bench_times");
    if std::env::var_os("CARGO_FEATURE_COUNTS").is_none() {
        let kit = std::env::var("RATTLE_KIT").expect("RATTLE_KIT");
        println!("cargo:rustc-link-search=native={kit}/c");
        println!("cargo:rustc-link-lib=static=libc_c");
    }
}
