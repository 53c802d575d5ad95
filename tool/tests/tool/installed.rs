//! What `make` tells and installs.

use crate::support::{Folder, TOOL};
use std::path::Path;
use std::process::{Command, Stdio};

/// Runs make in the repository's root.
fn make(words: &[String]) -> String {
    let root = Path::new(env!("CARGO_MANIFEST_DIR")).parent().unwrap();
    let mut make = Command::new("make");
    let output = make.args(words).current_dir(root).stdin(Stdio::null()).output().unwrap();
    assert!(output.status.success(), "{}", String::from_utf8_lossy(&output.stderr));
    String::from_utf8(output.stdout).unwrap()
}

#[test]
fn the_program_with_its_manual_page_and_completions() {
    let folder = Folder::new();
    let place = |name: &str, path: &str| format!("{name}={}", folder.path(path).display());
    let tool = format!("TOOL={TOOL}");
    let words = [place("DESTDIR", "root"), place("PAGES", "pages"), tool, "PREFIX=/usr".into()];
    make(&[&["install-tool".into()][..], &words].concat());
    assert_eq!(folder.read("root/usr/share/man/man1/doilycairn.1"), folder.done("man").bytes);
    let places = [
        ("bash", "bash-completion/completions/doilycairn"),
        ("zsh", "zsh/site-functions/_doilycairn"),
        ("fish", "fish/vendor_completions.d/doilycairn.fish"),
    ];
    for (shell, path) in places {
        let script = folder.done(&format!("completions {shell}")).bytes;
        assert_eq!(folder.read(&format!("root/usr/share/{path}")), script);
    }
    assert!(folder.has("root/usr/bin/doilycairn"));
    let root = Path::new(env!("CARGO_MANIFEST_DIR")).parent().unwrap();
    for name in ["NOTICE", "LICENSE"] {
        assert_eq!(
            folder.has(&format!("root/usr/share/doc/doilycairn/{name}")),
            root.join(name).exists()
        );
    }
}

#[test]
fn help_lists_every_target() {
    let help = make(&["help".into()]);
    for target in
        ["all", "help", "lib", "examples", "tool", "test", "install", "install-tool", "clean"]
    {
        assert!(help.contains(&format!("\n  {target} ")), "{target}: {help}");
    }
}
