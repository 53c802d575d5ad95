//! Help, version, and command lines that are wrong.

use crate::support::Folder;
use doilycairn::Refusal;
use std::ffi::OsStr;
use std::os::unix::ffi::OsStrExt;

const COMMANDS: [&str; 9] =
    ["encode", "decode", "export", "import", "info", "check", "same", "join", "trim"];

#[test]
fn help_and_version() {
    let folder = Folder::new();
    let all = folder.done("--help").out;
    assert_eq!(all, folder.done("-h").out);
    assert_eq!(all, folder.done("help").out);
    for status in 0..=5 {
        assert!(all.contains(&format!("\n  {status}  ")), "status {status} is not told");
    }
    for command in COMMANDS {
        assert!(all.contains(&format!("\n  {command} ")));
        let help = folder.done(&format!("{command} --help")).out;
        assert!(help.starts_with(&format!("Usage: doilycairn {command} ")));
        assert_eq!(help, folder.done(&format!("help {command}")).out);
        assert_eq!(help, folder.done(&format!("{command} a b c d -h")).out);
    }
    let version = format!("doilycairn {}\n", env!("CARGO_PKG_VERSION"));
    assert_eq!(folder.done("--version").out, version);
    assert_eq!(folder.done("-V").out, version);
}

#[test]
fn help_lists_the_refusals() {
    let folder = Folder::new();
    let out = folder.done("help refusals").out;
    let (list, entries) = out.split_once("\n\n").unwrap();
    let numbers: Vec<u32> = list.lines().map(|line| line[..4].trim().parse().unwrap()).collect();
    assert_eq!(numbers, Refusal::NUMBERS);
    assert!(list.contains("\n  19  the first sample is not in the clip\n"));
    for (number, line) in numbers.into_iter().zip(list.lines()) {
        assert_eq!(&line[4..], format!("  {}", Refusal::from_number(number, 0).unwrap().message()));
    }
    assert!(entries.starts_with("An entry is a block's") && entries.contains("gave 16"));
    assert!(entries.contains("The loop has an entry of its") && entries.contains("35 for export"));
}

#[test]
fn help_tells_every_option() {
    let folder = Folder::new();
    let options = [
        ("encode", "--block-size --gain --history --coefficients --verify --raw --rate"),
        ("encode", "--after --ignore-length --force --quiet --json --help --into --jobs"),
        ("encode", "--pad-to-frame --cut-to-frame --loop --wav-loop"),
        (
            "decode",
            "--block --from --count --loop --lead-in --raw --force --quiet --json --help --into --jobs",
        ),
        ("decode", "--lenient"),
        ("export", "--into --jobs --force --quiet --json --help"),
        ("import", "--into --jobs --block-size --lenient --force --quiet --json --help"),
        ("info", "--lenient"),
        ("info", "--blocks --against --raw --ignore-length --svg --force --quiet --json --help"),
        ("check", "--strict --jobs --quiet --json --help"),
        ("trim", "--from --to --recording --raw --ignore-length --force --quiet --json --help"),
        ("trim", "--drop-loop"),
        ("same", "--sound --quiet --json --help"),
        ("join", "--gain --reencode --block-size --drop-loop --force --quiet --json --help"),
    ];
    for (command, names) in options {
        let help = folder.done(&format!("help {command}")).out;
        for name in names.split(' ') {
            assert!(help.contains(name), "{command} {name}");
        }
    }
}

#[test]
fn wrong_command_lines() {
    let folder = Folder::new();
    let cases = [
        ("", "a command is missing"),
        ("what", "'what' is no command"),
        ("help what", "'what' is no command"),
        ("help a b", "a command is missing"),
        ("--json", "a command is missing"),
        ("encode", "IN.wav is missing; see `doilycairn encode --help`"),
        ("encode a", "OUT.dspc is missing"),
        ("encode a b c", "'c' is one word too many"),
        ("encode --what a b", "unknown option '--what'"),
        ("encode -x a b", "unknown option '-x'"),
        ("encode --block-size", "--block-size lacks its value"),
        ("encode --block-size x a b", "'x' is not a number"),
        ("encode --gain 65536 a b", "'65536' is not a number from 0 to 65,535"),
        ("encode --gain 1 --gain 2 a b", "--gain is given twice"),
        ("encode --raw a b", "--raw needs --rate HZ"),
        ("encode --rate 5 a b", "--rate goes with --raw"),
        ("encode --raw --rate 4294967296 a b", "is not a number from 1 to 4,294,967,295"),
        ("encode --history 5 a b", "--history is NEWEST,OLDER"),
        ("encode --history 5,40000 a b", "--history is NEWEST,OLDER"),
        ("encode --raw --rate 0 a b", "--rate: '0' is not a number from 1 to 4,294,967,295"),
        ("encode --block-size 7 a b", "--block-size: '7' is not a number from 8 to 65,536"),
        ("encode --block-size 65537 a b", "'65537' is not a number from 8 to 65,536"),
        ("encode --block-size 99999999999999999999999 a b", "is not a number from 8 to 65,536"),
        ("join --reencode --block-size 7 a b c", "'7' is not a number from 8 to 65,536"),
        ("encode --verify=1 a b", "--verify takes no value"),
        ("encode --coefficients - - b", "standard input can be read only once"),
        ("decode --block -1 a b", "'-1' is not a number"),
        ("decode --from 5 --block 0 a b", "--block and --from: give one of the two"),
        (
            "decode --from 4294967296 a b",
            "--from: '4294967296' is not a number from 0 to 4,294,967,295",
        ),
        ("decode --count -1 a b", "--count: '-1' is not a number from 0 to 4,294,967,295"),
        ("decode --count", "--count lacks its value"),
        ("decode a", "OUT.wav is missing"),
        ("export", "IN.dspc is missing; see `doilycairn export --help`"),
        ("export a", "OUT.dsp is missing"),
        ("export --lenient a b", "unknown option '--lenient'"),
        ("export --block-size 8 a b", "unknown option '--block-size'"),
        ("import", "IN.dsp is missing; see `doilycairn import --help`"),
        ("import a", "OUT.dspc is missing"),
        ("import a b c", "'c' is one word too many: many files go to a folder, by --into"),
        ("import --block-size 7 a b", "--block-size: '7' is not a number from 8 to 65,536"),
        ("import --block-size 65537 a b", "'65537' is not a number from 8 to 65,536"),
        ("import --lenient=1 a b", "--lenient takes no value"),
        ("info", "IN.dspc is missing"),
        ("info --against - -", "standard input can be read only once"),
        ("same a", "B.dspc is missing"),
        ("same - -", "standard input can be read only once"),
        ("same --sound=1 a b", "--sound takes no value"),
        ("same --sound a", "B.dspc is missing"),
        ("join a b", "OUT.dspc is missing"),
        ("join --block-size 8 a b c", "--block-size goes with --reencode"),
        ("encode --json a -", "standard output has the answer"),
    ];
    for (line, words) in cases {
        let run = folder.run(line);
        assert_eq!(run.status, 2, "{line}: {run:?}");
        let said = if line.contains("--json") { &run.out } else { &run.err };
        assert!(said.contains(words), "{line}: '{words}' is not in: {said}");
    }
    assert!(folder.names().is_empty());
}

#[test]
fn names_that_are_not_utf_8_or_have_control_characters() {
    let folder = Folder::new();
    let wrong = OsStr::from_bytes(b"a\xff\x1b[2J\n");
    let output = folder.tool(&[OsStr::new("check"), wrong]).output().unwrap();
    assert_eq!(output.status.code(), Some(5));
    let err = String::from_utf8(output.stderr).unwrap();
    assert!(err.contains("cannot read a\u{fffd}\\u{1b}[2J\\n: No such file"), "{err}");
    let output = folder.tool(&[wrong]).output().unwrap();
    assert_eq!(output.status.code(), Some(2));
}

#[test]
fn two_dashes_end_the_options() {
    let folder = Folder::new();
    folder.run("check -- --json").expect(5, "cannot read --json");
}
