//! Finds the C library: by the environment variable XV6VM_LIBRARY, the path of a folder with its archives or of the shared library, or
//! else by pkg-config.

use std::env;
use std::path::{Path, PathBuf};
use std::process::{exit, Command};

const VARIABLE: &str = "XV6VM_LIBRARY";
const WANTED: &str = "xv6vm >= 0.9";

fn fail(text: &str) -> ! {
    eprintln!("xv6vm-sys: {text}");
    eprintln!("Either set {VARIABLE} to the folder of the library, with libxv6vm.a or libxv6vm.so of a release, or with libxv6vm_c.a as");
    eprintln!("`rt lib` makes it (for scripts also libxv6vm_play_c.a, and liblibc_c.a of the kit); or set PKG_CONFIG_PATH to the folder with");
    eprintln!("xv6vm.pc.");
    exit(1)
}

/// Links an archive or a shared library, which lies in a folder.
fn link(kind: &str, name: &str, folder: &Path) {
    println!("cargo:rustc-link-search=native={}", folder.display());
    println!("cargo:rustc-link-lib={kind}{name}");
    for file in [format!("lib{name}.a"), format!("lib{name}.so")] {
        println!("cargo:rerun-if-changed={}", folder.join(file).display());
    }
}

/// Links the archives of a folder, and says whether they are there: that of a release, or else those that `rt lib` makes.
fn link_archives(folder: &Path, with_scripts: bool) -> bool {
    let parts: &[&str] = if with_scripts { &["xv6vm_c", "xv6vm_play_c", "libc_c"] } else { &["xv6vm_c"] };
    for names in [&["xv6vm"], parts] {
        if names.iter().all(|name| folder.join(format!("lib{name}.a")).is_file()) {
            names.iter().for_each(|name| link("static=", name, folder));
            return true;
        }
    }
    false
}

fn link_path(path: &Path, with_scripts: bool) {
    if !path.exists() {
        fail(&format!("{VARIABLE} is {}, and there is no such file or folder.", path.display()));
    }
    let is_folder = path.is_dir();
    let folder = if is_folder { path } else { path.parent().unwrap_or(path) };
    let is_shared = path.file_name().and_then(|it| it.to_str()).map_or(false, |it| it.starts_with("libxv6vm.so"));
    if !is_shared && link_archives(folder, with_scripts) {
        return;
    }
    if (is_shared || is_folder) && folder.join("libxv6vm.so").is_file() {
        return link("dylib=", "xv6vm", folder);
    }
    let parts = if with_scripts { "libxv6vm_c.a, libxv6vm_play_c.a and liblibc_c.a" } else { "libxv6vm_c.a" };
    fail(&format!("{VARIABLE} is {}; of libxv6vm.a, libxv6vm.so, and {parts} none is there.", path.display()))
}

/// Links what `pkg-config --libs` names.
fn link_flags(flags: &str) {
    let folders: Vec<PathBuf> = flags.split_whitespace().filter_map(|it| it.strip_prefix("-L")).map(PathBuf::from).collect();
    for folder in &folders {
        println!("cargo:rustc-link-search=native={}", folder.display());
    }
    for flag in flags.split_whitespace() {
        let path = Path::new(flag);
        if let Some(name) = flag.strip_prefix("-l") {
            let has = |file: String| folders.iter().any(|it| it.join(&file).is_file());
            println!("cargo:rustc-link-lib={}{name}", if has(format!("lib{name}.a")) { "static=" } else { "" });
        } else if path.is_absolute() && path.extension().map_or(false, |it| it == "a") {
            let name = path.file_stem().and_then(|it| it.to_str()).and_then(|it| it.strip_prefix("lib"));
            link("static=", name.unwrap_or("xv6vm_c"), path.parent().unwrap_or(path));
        }
    }
}

fn link_package() {
    let program = env::var_os("PKG_CONFIG").unwrap_or_else(|| "pkg-config".into());
    match Command::new(&program).args(["--libs", WANTED]).output() {
        Ok(ran) if ran.status.success() => link_flags(&String::from_utf8_lossy(&ran.stdout)),
        Ok(ran) => {
            let said = String::from_utf8_lossy(&ran.stderr);
            fail(&format!(
                "the C library was not found: {VARIABLE} is not set, and pkg-config does not know {WANTED}:\n{}",
                said.trim()
            ))
        }
        Err(error) => fail(&format!(
            "the C library was not found: {VARIABLE} is not set, and {} does not run: {error}.",
            program.to_string_lossy()
        )),
    }
}

fn main() {
    for name in [VARIABLE, "PKG_CONFIG", "PKG_CONFIG_PATH", "PKG_CONFIG_LIBDIR"] {
        println!("cargo:rerun-if-env-changed={name}");
    }
    println!("cargo:rerun-if-changed=build.rs");
    if env::var_os("DOCS_RS").is_some() {
        return;
    }
    match env::var_os(VARIABLE) {
        Some(path) => link_path(Path::new(&path), env::var_os("CARGO_FEATURE_PLAY").is_some()),
        None => link_package(),
    }
}
