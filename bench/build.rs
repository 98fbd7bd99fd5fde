// Compiles the C versions with gcc for this processor, at its highest level, into an archive of
// their own, and the best of them a second time for every x86-64, as the kit compiles the library:
// that one shows what the loops cost, without what wider registers give, but for memcpy and memset,
// which are the C library's, and for grids of up to 8 columns, where it is the byte loop. The Rust
// version is compiled for AVX2 and BMI, by `target_feature` in src/mapper/best.rs: cargo has no
// setting for one package alone, and the library is to be measured as it is delivered.
use std::{env, path::PathBuf, process::Command};

/// An object, its source, and what else gcc is told.
const OBJECTS: [(&str, &str, &[&str]); 5] = [
    ("loops", "mapper/loops", &["-march=native"]),
    ("best", "mapper/best", &["-march=native"]),
    (
        "plain",
        "mapper/best",
        &["-march=x86-64", "-Dbest_place=plain_place", "-Dbest_take=plain_take"],
    ),
    ("wide", "mapper/wide", &["-march=native"]),
    ("whole", "mapper/whole", &["-march=native"]),
];

fn main() {
    let out = PathBuf::from(env::var("OUT_DIR").unwrap());
    let run = |command: &mut Command| {
        assert!(command.status().expect("gcc and ar").success(), "{command:?}")
    };
    let objects = OBJECTS.map(|(name, source, told)| {
        let (source, object) = (format!("src/{source}.c"), out.join(format!("{name}.o")));
        run(Command::new("gcc")
            .args(["-std=gnu99", "-O3", "-Wall", "-Wextra", "-I../bindings/c/include"])
            .args(told)
            .args(["-c", &source, "-o"])
            .arg(&object));
        println!("cargo:rerun-if-changed={source}");
        object
    });
    run(Command::new("ar").arg("rcs").arg(out.join("libplacing.a")).args(&objects));
    println!("cargo:rustc-link-search=native={}", out.display());
    println!("cargo:rustc-link-lib=static=placing");
    println!("cargo:rerun-if-changed=src/mapper/placing.h");
    println!("cargo:rerun-if-changed=../bindings/c/include/odu0.h");
}
