//! Has the linker hand the tests' calls of the library to tests/slips, which passes them on.

fn main() {
    println!("cargo:rerun-if-changed=build.rs");
    for call in [
        "psic_make",
        "psic_execute",
        "psic_run",
        "psic_highest_in",
        "psic_ranges_in",
        "psic_claim_in_place",
        "psic_read",
        "psic_replay",
        "psic_write",
        "psic_make_routines",
        "psic_enter",
        "psic_exit",
        "psic_simulate",
    ] {
        println!("cargo:rustc-link-arg-tests=-Wl,--wrap={call}");
    }
}
