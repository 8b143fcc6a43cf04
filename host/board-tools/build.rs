//! Sends the copying functions of one program through its counters.

fn main() {
    println!("cargo:rerun-if-changed=build.rs");
    for function in ["memcpy", "memmove", "memset"] {
        println!("cargo:rustc-link-arg-bin=count-copies=-Wl,--wrap={function}");
    }
}
