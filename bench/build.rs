//! Builds the shim over FFmpeg's SMC decoder and encoder where pkg-config knows libavcodec, and sets
//! the cfg `ffmpeg` there. Without it the benchmark has the library and the second reader alone.

use std::env;
use std::path::{Path, PathBuf};
use std::process::Command;

const SHIM: &str = "src/ffmpeg.c";

fn main() {
    println!("cargo:rustc-check-cfg=cfg(ffmpeg)");
    println!("cargo:rerun-if-changed=build.rs");
    println!("cargo:rerun-if-changed={SHIM}");
    for variable in ["PKG_CONFIG_PATH", "PKG_CONFIG_LIBDIR"] {
        println!("cargo:rerun-if-env-changed={variable}");
    }
    println!("cargo:rustc-env=BENCH_RUSTC={}", rustc_version());
    let out = PathBuf::from(env::var_os("OUT_DIR").expect("cargo sets OUT_DIR"));
    match pkg_config(&["--cflags", "--libs"]) {
        Some(flags) => build_shim(&out, &flags),
        // A file that is not there makes cargo look again at every build, and so see FFmpeg come.
        None => println!("cargo:rerun-if-changed={}", out.join("none").display()),
    }
}

fn build_shim(out: &Path, flags: &str) {
    // The folder changes when FFmpeg goes or is replaced; its files can be older than this build.
    let folder = pkg_config(&["--variable=pcfiledir"]).expect("asked a moment ago");
    for folder in folder.split_whitespace() {
        println!("cargo:rerun-if-changed={folder}");
    }
    let object = out.join("ffmpeg.o");
    let archive = out.join("libbench_ffmpeg.a");
    let headers = flags
        .split_whitespace()
        .filter(|flag| !flag.starts_with("-l"));
    let mut compile = Command::new("cc");
    compile.args(["-O2", "-c", SHIM, "-o"]).arg(&object);
    run(compile.args(headers));
    run(Command::new("ar").arg("crs").arg(&archive).arg(&object));
    println!("cargo:rustc-cfg=ffmpeg");
    println!("cargo:rustc-link-search=native={}", out.display());
    println!("cargo:rustc-link-lib=static=bench_ffmpeg");
    for flag in flags.split_whitespace() {
        if let Some(folder) = flag.strip_prefix("-L") {
            println!("cargo:rustc-link-search=native={folder}");
        } else if let Some(library) = flag.strip_prefix("-l") {
            println!("cargo:rustc-link-lib={library}");
        }
    }
}

/// What pkg-config says of libavcodec and libavutil; nothing where it or one of them is missing.
fn pkg_config(asked: &[&str]) -> Option<String> {
    let mut command = Command::new("pkg-config");
    let output = command
        .args(asked)
        .args(["libavcodec", "libavutil"])
        .output();
    let output = output.ok().filter(|output| output.status.success())?;
    String::from_utf8(output.stdout).ok()
}

fn rustc_version() -> String {
    let rustc = env::var_os("RUSTC").expect("cargo sets RUSTC");
    let output = Command::new(rustc).arg("--version").output();
    let output = output.expect("rustc runs");
    String::from_utf8_lossy(&output.stdout).trim().to_string()
}

fn run(command: &mut Command) {
    let status = command.status();
    let status = status.unwrap_or_else(|error| panic!("{command:?}: {error}"));
    assert!(status.success(), "{command:?}: {status}");
}
