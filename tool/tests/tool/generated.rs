//! The manual page and the completions: made from the table that help is made from.

use crate::support::Folder;
use std::process::{Command, Stdio};

/// Options that help names, of every command.
fn options(folder: &Folder) -> Vec<String> {
    let commands =
        ["encode", "decode", "export", "import", "info", "check", "same", "join", "trim"];
    let help: String = commands.map(|name| folder.done(&format!("help {name}")).out).concat();
    let words = help.split(|c: char| !c.is_ascii_lowercase() && c != '-');
    let mut options: Vec<String> =
        words.filter(|word| word.starts_with("--")).map(Into::into).collect();
    options.sort();
    options.dedup();
    assert!(options.len() > 20);
    options
}

#[test]
fn the_manual_page_has_every_option() {
    let folder = Folder::new();
    let page = folder.done("man").out;
    assert!(page.starts_with(".TH DOILYCAIRN 1 "));
    for option in options(&folder) {
        assert!(page.contains(&option.replace('-', "\\-")), "{option}");
    }
    folder.run("man encode").expect(2, "'encode' is one word too many");
    for section in ["NAME", "SYNOPSIS", "DESCRIPTION", "COMMANDS", "EXIT STATUS"] {
        assert!(page.contains(&format!("\n.SH {section}\n")), "{section}");
    }
    // No control line but those meant, no raw dash that a reader could not copy.
    for line in page.lines().filter(|line| line.starts_with(['.', '\''])) {
        let name = line[1..].split(' ').next().unwrap();
        let known = ["TH", "SH", "SS", "TP", "PP", "B", "I", "RI", "br", "RS", "RE", "nf", "fi"];
        assert!(known.contains(&name), "{line}");
    }
}

#[test]
fn completions_have_every_option() {
    let folder = Folder::new();
    for shell in ["bash", "zsh", "fish"] {
        let script = folder.done(&format!("completions {shell}")).out;
        for option in options(&folder) {
            let name = if shell == "fish" { option.replacen("--", "-l ", 1) } else { option };
            assert!(script.contains(&name), "{shell} {name}");
        }
    }
    folder.run("completions").expect(2, "there are completions for bash, zsh and fish");
    folder.run("completions csh").expect(2, "there are completions for bash, zsh and fish");
}

/// What bash completes after these words.
fn completed(folder: &Folder, words: &[&str]) -> Vec<String> {
    let script = format!(
        "{}\nCOMP_WORDS=(doilycairn {}); COMP_CWORD={}; _doilycairn; printf '%s\\n' \"${{COMPREPLY[@]}}\"",
        folder.done("completions bash").out,
        words.iter().map(|word| format!("'{word}'")).collect::<Vec<_>>().join(" "),
        words.len()
    );
    let mut bash = Command::new("bash");
    let output = bash.arg("-c").arg(script).current_dir(&folder.0).stdin(Stdio::null()).output();
    let output = output.unwrap();
    assert_eq!(String::from_utf8(output.stderr).unwrap(), "");
    let text = String::from_utf8(output.stdout).unwrap();
    text.lines().filter(|line| !line.is_empty()).map(Into::into).collect()
}

#[test]
fn bash_completes() {
    let folder = Folder::new();
    std::fs::create_dir(folder.path("clips")).unwrap();
    assert_eq!(completed(&folder, &["en"]), ["encode"]);
    assert_eq!(completed(&folder, &["encode", "--blo"]), ["--block-size"]);
    assert_eq!(completed(&folder, &["decode", "--co"]), ["--count"]);
    assert_eq!(completed(&folder, &["decode", "--f"]), ["--from", "--force"]);
    assert_eq!(completed(&folder, &["decode", "--l"]), ["--loop", "--lead-in", "--lenient"]);
    assert_eq!(completed(&folder, &["im"]), ["import"]);
    assert_eq!(completed(&folder, &["import", "--l"]), ["--lenient"]);
    assert_eq!(completed(&folder, &["export", "--i"]), ["--into"]);
    assert_eq!(completed(&folder, &["trim", "--dr"]), ["--drop-loop"]);
    assert_eq!(completed(&folder, &["--json", "check", "--st"]), ["--strict"]);
    assert_eq!(completed(&folder, &["help", "ref"]), ["refusals"]);
    assert_eq!(completed(&folder, &["completions", ""]), ["bash", "zsh", "fish"]);
    assert_eq!(completed(&folder, &["encode", "--into", "cl"]), ["clips"]);
    // Files, by the shell itself.
    assert!(completed(&folder, &["encode", "in"]).is_empty());
    assert!(completed(&folder, &["encode", "--gain", ""]).is_empty());
    assert!(completed(&folder, &["decode", "--count", ""]).is_empty());
    assert!(completed(&folder, &["encode", "--loop", ""]).is_empty());
}
