//! Calls: options before the command, what a mistyped word may have meant.

use crate::parse::Value;
use crate::support::{Folder, image, sound, wav};

#[test]
fn options_may_stand_before_the_command() {
    let folder = Folder::new();
    let clip = sound(300, 1);
    folder.write("in.wav", wav(&clip, 32_000));
    folder.done("--block-size 80 encode in.wav a");
    folder.done("--block-size=80 -q encode in.wav b");
    assert_eq!(folder.read("a"), image(&clip, 32_000, 80));
    assert_eq!(folder.read("a"), folder.read("b"));
    let json = Value::of_line(&folder.done("--json check a").out);
    assert_eq!(json.text("command"), "check");
    assert_eq!(folder.done("--help encode").out, folder.done("encode --help").out);
    assert_eq!(folder.done("-q --help").out, folder.done("--help").out);
    folder.run("--block-size 80 check a").expect(2, "unknown option '--block-size'");
    folder.run("--block-size").expect(2, "a command is missing");
}

#[test]
fn mistyped_words_get_a_suggestion() {
    let folder = Folder::new();
    let cases = [
        (
            "--verison",
            "unknown option '--verison'; did you mean '--version'? See `doilycairn --help`",
        ),
        ("--hlep", "did you mean '--help'?"),
        ("encod a b", "'encod' is no command; did you mean 'encode'?"),
        ("hepl", "did you mean 'help'?"),
        ("encode --blocksize 80 a b", "unknown option '--blocksize'; did you mean '--block-size'?"),
        ("check --jsno a", "did you mean '--json'?"),
        ("same --strct a b", "unknown option '--strct'; see"),
        ("what", "'what' is no command; see"),
    ];
    for (line, words) in cases {
        folder.run(line).expect(2, words);
    }
}
