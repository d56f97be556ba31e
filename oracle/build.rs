//! Tells the linker where the model's libraries lie, when a comparison asks for one.

/// Each feature that asks for a library, as cargo names it, and the library.
const LIBRARIES: [(&str, &str); 4] = [
    ("CARGO_FEATURE_LIBRARY", "libtockfeather.a"),
    ("CARGO_FEATURE_TRACE_LIBRARY", "libtrace_trial.a"),
    ("CARGO_FEATURE_CAPTURE_LIBRARY", "libpcap_trial.a"),
    ("CARGO_FEATURE_COUNTER_LIBRARY", "libcounter_trial.a"),
];

fn main() {
    println!("cargo:rerun-if-env-changed=TOCKFEATHER_LIB_DIR");
    for (feature, library) in LIBRARIES {
        if std::env::var_os(feature).is_none() {
            continue;
        }
        let folder = std::env::var("TOCKFEATHER_LIB_DIR")
            .unwrap_or_else(|_| panic!("TOCKFEATHER_LIB_DIR must name the folder of {library}"));
        println!("cargo:rerun-if-changed={folder}/{library}");
        println!("cargo:rustc-link-search=native={folder}");
    }
}
