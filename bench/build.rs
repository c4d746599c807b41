// Links the static library of the crate `bench_abi` and the C library of the toolchain; `run` says where they are. Built without
// the feature `library`, nothing is linked, and only the program `alone` is made.
fn main() {
    if std::env::var_os("CARGO_FEATURE_LIBRARY").is_none() {
        return;
    }
    let libraries = [("BENCH_ABI_DIR", "bench_abi"), ("RATTLE_C_DIR", "os_c"), ("RATTLE_C_DIR", "libc_c")];
    for (variable, library) in libraries {
        let dir = std::env::var(variable).expect("start it by bench/run");
        println!("cargo:rustc-link-search=native={dir}");
        println!("cargo:rustc-link-lib=static={library}");
        println!("cargo:rerun-if-changed={dir}/lib{library}.a");
        println!("cargo:rerun-if-env-changed={variable}");
    }
}
