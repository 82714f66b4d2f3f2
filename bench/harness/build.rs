//! Links the proved library, and the heap calls of the C library that it uses.
//! The script that builds both says where they are.

use std::env;

fn main() {
    for name in ["PROVED_LIBRARY", "HEAP_LIBRARY"] {
        println!("cargo:rerun-if-env-changed={name}");
        let path = env::var(name)
            .unwrap_or_else(|_| panic!("{name} is not set: run bench/agree.sh or bench/speed.sh"));
        println!("cargo:rerun-if-changed={path}");
        println!("cargo:rustc-link-arg-bins={path}");
    }
}
