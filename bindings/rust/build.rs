//! Links the static library. `NOVA_C` is the folder that has `libnova_c.a` and `liblibc_c.a`; without it, where `mount/build` of
//! the repository leaves them.

fn main() {
    let built = concat!(env!("CARGO_MANIFEST_DIR"), "/../../mount/out");
    let folder = std::env::var("NOVA_C").unwrap_or_else(|_| built.to_string());
    println!("cargo:rerun-if-env-changed=NOVA_C");
    println!("cargo:rerun-if-changed={folder}/libnova_c.a");
    println!("cargo:rustc-link-search=native={folder}");
    println!("cargo:rustc-link-lib=static=nova_c");
    println!("cargo:rustc-link-lib=static=libc_c");
}
