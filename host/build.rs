//! Finds or builds liblinked.a, the archive of the proved functions, and says plainly what is missing where it can't.
use std::env;
use std::path::{Path, PathBuf};
use std::process::{exit, Command};

const ARCHIVE: &str = "liblinked.a";

fn main() {
    println!("cargo:rerun-if-changed=build.rs");
    println!("cargo:rerun-if-env-changed=COE_DESK_LIB_DIR");
    expect_target();
    let dir = archive_dir();
    println!("cargo:rerun-if-changed={}", dir.join(ARCHIVE).display());
    println!("cargo:rustc-link-search=native={}", dir.display());
    println!("cargo:rustc-link-lib=static=linked");
}

fn fail(message: &str) -> ! {
    eprintln!("\ncoe-desk: {message}\n");
    exit(1)
}

fn expect_target() {
    let arch = env::var("CARGO_CFG_TARGET_ARCH").unwrap_or_default();
    let os = env::var("CARGO_CFG_TARGET_OS").unwrap_or_default();
    if arch != "x86_64" || !matches!(os.as_str(), "linux" | "none") {
        fail(&format!(
            "this builds for {arch} {os}, and {ARCHIVE} is for x86-64 Linux.\n\
             Build with --target x86_64-unknown-linux-gnu. On another processor that takes the target's std, a linker\n\
             (CARGO_TARGET_X86_64_UNKNOWN_LINUX_GNU_LINKER) and an emulator (.._RUNNER): tools/cargo sets up all three on Debian."
        ));
    }
}

fn archive_dir() -> PathBuf {
    if let Some(dir) = env::var_os("COE_DESK_LIB_DIR") {
        let dir = PathBuf::from(dir);
        if !dir.join(ARCHIVE).is_file() {
            fail(&format!(
                "COE_DESK_LIB_DIR is {}, and there is no {ARCHIVE} in it.\n\
                 Set it to the folder that holds {ARCHIVE}, by its full path, or unset it.",
                dir.display()
            ));
        }
        return dir;
    }
    let here = PathBuf::from(env::var_os("CARGO_MANIFEST_DIR").unwrap_or_default());
    let root = here.parent().unwrap_or(&here).to_path_buf();
    let dir = root.join("target/staticlib");
    if !dir.join(ARCHIVE).is_file() {
        build_archive(&root, &dir);
    }
    dir
}

fn build_archive(root: &Path, dir: &Path) {
    let missing = format!("{ARCHIVE} is missing: COE_DESK_LIB_DIR is not set, and there is none in {}.", dir.display());
    let tool = root.join("tools/archive");
    let built = Command::new(&tool).output();
    match built {
        Err(_) => fail(&format!(
            "{missing}\n\
             It could not be built either: {} did not start.\n\
             Set COE_DESK_LIB_DIR to the folder of a built {ARCHIVE}.",
            tool.display()
        )),
        Ok(output) if !output.status.success() => fail(&format!(
            "{missing}\n\
             It could not be built either: {} says\n{}{}\
             Set COE_DESK_LIB_DIR to the folder of a built {ARCHIVE}, or mend that.",
            tool.display(),
            String::from_utf8_lossy(&output.stdout),
            String::from_utf8_lossy(&output.stderr)
        )),
        Ok(_) if !dir.join(ARCHIVE).is_file() => fail(&format!("{missing}\n{} ended well and left none there.", tool.display())),
        Ok(_) => {}
    }
}
