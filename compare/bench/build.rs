//! Compiles the tinygltf side where the variable TINYGLTF names the folder of its headers (Debian: libtinygltf-dev,
//! nlohmann-json3-dev, libstb-dev, unpacked or installed).

use std::env;
use std::process::Command;

fn main() {
    println!("cargo:rustc-check-cfg=cfg(tinygltf)");
    println!("cargo:rerun-if-env-changed=TINYGLTF");
    println!("cargo:rerun-if-changed=tinygltf.cpp");
    let Ok(headers) = env::var("TINYGLTF") else { return };
    let out = env::var("OUT_DIR").expect("cargo sets it");
    let object = format!("{out}/tinygltf.o");
    run(Command::new("g++").args(["-O2", "-std=c++17", "-c", "tinygltf.cpp", "-I", &headers, "-o", &object]));
    run(Command::new("ar").args(["rcs", &format!("{out}/libtinygltf_side.a"), &object]));
    println!("cargo:rustc-link-search=native={out}");
    println!("cargo:rustc-link-lib=static=tinygltf_side");
    println!("cargo:rustc-link-lib=stdc++");
    println!("cargo:rustc-cfg=tinygltf");
}

fn run(command: &mut Command) {
    let status = command.status().expect("the compiler runs");
    assert!(status.success(), "{command:?}");
}
