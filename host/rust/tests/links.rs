//! Where the build script finds the library, and what it says where there is none.

#[allow(dead_code)] // its main is cargo's to call
#[path = "../build.rs"]
mod build;

use std::ffi::OsString;
use std::fs;
use std::io::{Error, ErrorKind, Result};
use std::os::unix::process::ExitStatusExt;
use std::path::{Path, PathBuf};
use std::process::{ExitStatus, Output};

/// An empty folder of that name.
fn folder(name: &str) -> PathBuf {
    let folder = Path::new(env!("CARGO_TARGET_TMPDIR")).join("links").join(name);
    let _ = fs::remove_dir_all(&folder);
    fs::create_dir_all(&folder).unwrap();
    folder
}

/// Puts a library there, and says where.
fn put(folder: &Path) -> PathBuf {
    fs::create_dir_all(folder).unwrap();
    let library = folder.join("libhost.a");
    fs::write(&library, "a library").unwrap();
    library
}

fn ended(code: i32) -> Output {
    Output {
        status: ExitStatus::from_raw(code << 8),
        stdout: b"said\n".to_vec(),
        stderr: b"complained\n".to_vec(),
    }
}

fn never(_: &Path) -> Result<Output> {
    panic!("there is nothing to make")
}

/// That a message names the command to run and the variable.
fn assert_advice(message: &str) {
    assert!(message.contains("`host/library`"), "{message}");
    assert!(message.contains("MAKVLURIA_LIB"), "{message}");
}

#[test]
fn the_named_folder_comes_first() {
    let (root, named) = (folder("named-root"), folder("named"));
    put(&root.join("target/staticlib"));
    let library = put(&named);
    for architecture in ["x86_64", "arm"] {
        assert_eq!(
            build::find(Some(named.clone().into()), &root, architecture, never),
            Ok(library.clone())
        );
    }
}

#[test]
fn a_named_folder_without_a_library_is_refused() {
    let (root, named) = (folder("empty-root"), folder("empty"));
    put(&root.join("target/staticlib"));
    let message = build::find(Some(named.clone().into()), &root, "x86_64", never).unwrap_err();
    assert!(message.contains(named.to_str().unwrap()), "{message}");
    assert_advice(&message);
    let relative = Some(OsString::from("target/staticlib"));
    let message = build::find(relative, &root, "x86_64", never).unwrap_err();
    assert!(message.contains("absolute"), "{message}");
}

#[test]
fn a_library_that_stands_in_the_repository_is_taken() {
    let root = folder("standing");
    let library = put(&root.join("target/staticlib"));
    for named in [None, Some(OsString::new())] {
        assert_eq!(build::find(named, &root, "x86_64", never), Ok(library.clone()));
    }
}

#[test]
fn a_missing_library_is_made_at_the_root() {
    let root = folder("made");
    let make = |at: &Path| {
        assert_eq!(at, root);
        put(&at.join("target/staticlib"));
        Ok(ended(0))
    };
    let library = root.join("target/staticlib/libhost.a");
    assert_eq!(build::find(None, &root, "x86_64", make), Ok(library));
}

#[test]
fn without_the_toolchain_the_message_says_what_to_run() {
    let root = folder("toolless");
    let absent = |_: &Path| Err(Error::from(ErrorKind::NotFound));
    let message = build::find(None, &root, "x86_64", absent).unwrap_err();
    assert!(message.contains(root.to_str().unwrap()), "{message}");
    assert!(message.contains("no `rt`"), "{message}");
    assert_advice(&message);
    let denied = |_: &Path| Err(Error::from(ErrorKind::PermissionDenied));
    assert_advice(&build::find(None, &root, "x86_64", denied).unwrap_err());
}

#[test]
fn a_failed_build_is_passed_on() {
    let root = folder("failed");
    for code in [0, 1] {
        let message = build::find(None, &root, "x86_64", |_: &Path| Ok(ended(code))).unwrap_err();
        assert!(message.contains("said\ncomplained\n"), "{message}");
        assert_advice(&message);
    }
}

#[test]
fn another_architecture_needs_a_library_of_its_own() {
    let root = folder("arm");
    put(&root.join("target/staticlib"));
    let message = build::find(None, &root, "arm", never).unwrap_err();
    assert!(message.contains("arm"), "{message}");
    assert_advice(&message);
}
