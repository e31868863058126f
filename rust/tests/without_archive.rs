//! Without the archive `cargo check` and `cargo doc` run, and whatever has to be linked says what is missing, without a backtrace.
use std::path::Path;
use std::process::{Command, Output};

fn cargo(command: &[&str], target: &Path) -> Output {
    let mut cargo = Command::new(env!("CARGO"));
    cargo.args(command).args(["--offline", "--lib", "--manifest-path", concat!(env!("CARGO_MANIFEST_DIR"), "/Cargo.toml")]);
    cargo.env("REKVASHU_LIB", target.join("nowhere")).env("CARGO_TARGET_DIR", target).env("RUST_BACKTRACE", "1");
    cargo.output().unwrap()
}

#[test]
fn check_and_doc_run_and_a_build_explains_itself() {
    let target = Path::new(env!("CARGO_TARGET_TMPDIR")).join("without_archive");
    // the figures too, which need a library of their own to be linked
    for command in [&["check", "--examples", "--features", "figures"][..], &["doc"]] {
        let out = cargo(command, &target);
        assert!(out.status.success(), "cargo {command:?}: {}", String::from_utf8_lossy(&out.stderr));
    }
    assert!(target.join("doc/rekvashu/index.html").exists());
    let out = cargo(&["build"], &target);
    let said = String::from_utf8_lossy(&out.stderr);
    assert!(!out.status.success());
    assert!(said.contains("libddm_c.a is not there") && said.contains("make it by `tools/build.sh ddm_c`"), "{said}");
    assert!(!said.contains("panicked") && !said.contains("backtrace"), "{said}");
}
