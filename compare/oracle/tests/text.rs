//! The commands of the binary `oracle`.

use oracle::text::answer;

const ZEROS: &str = "0,0,0,0,0,0,0,0,0,0,0,0,0,0,0,0";

#[test]
fn commands_are_answered() {
    let frame = answer(&format!("encode_frame 0 0 9 {ZEROS}"));
    assert_eq!(frame, "ok 0140 16 8 0");
    let clip = answer(&format!("encode 32000 15 0 0 0 {ZEROS} -/9/-"));
    assert_eq!(clip, "ok 16 8 0 0140:3:32000:1:0:0:0");
    let empty = answer(&format!("encode 32000 15 0 1 2 {ZEROS} -"));
    assert_eq!(empty, "ok 0 1 2");
    let played = answer(&format!("decode 5 0 0 0 {ZEROS} 0078f0"));
    assert_eq!(played, "ok 7,-8,-1 0 -1 -8");
    assert_eq!(answer("address_to_sample 19"), "ok 15");
    assert_eq!(answer("sample_to_address 28"), "ok 34");
    assert_eq!(answer("sample_to_address 4294967295"), "ok 4908534053");
    assert_eq!(answer(&format!("join {ZEROS} 0a0b {ZEROS} -")), "ok 0a0b");
}

#[test]
fn measuring_commands_agree() {
    let samples = "5,3,9,-4,12,7,-20,31,8,-6,2,14,-3,1,9,22,-17,40,6,-2,11,8,-9,5,3,1,-12,18";
    let measured = answer(&format!("measure {samples}"));
    let words: Vec<_> = measured.split(' ').collect();
    assert_eq!((words[0], words.len(), words[1].len()), ("ok", 3, 2 * 33 + 1));
    assert_eq!(answer(&format!("coefficients {}", words[1])), format!("ok {}", words[2]));
    let (first, _) = words[1].split_once(',').unwrap();
    let start =
        format!("{}{samples}", "0,".repeat(14)).split(',').take(28).collect::<Vec<_>>().join(",");
    let frame = answer(&format!("process_frame {start}"));
    assert!(frame.starts_with(&format!("ok {first} 5,3,9,")), "{frame}");
    assert_eq!(answer("measure -"), format!("ok - {ZEROS}"));
    assert_eq!(answer("coefficients -"), format!("ok {ZEROS}"));
}

#[test]
fn refusals_panics_and_bad_lines_are_answered() {
    let ones = ZEROS.replace('0', "1");
    assert_eq!(answer(&format!("join {ZEROS} 00 {ones} 00")), "refused DifferentCoefficients");
    assert_eq!(answer(&format!("encode 0 8 0 0 0 {ZEROS} 1")), "refused InvalidSampleRate(0)");
    assert_eq!(answer(&format!("encode 1 7 0 0 0 {ZEROS} 1")), "panic block size is too small");
    assert!(answer(&format!("decode 3 0 0 0 {ZEROS} 00")).starts_with("panic index out of bounds"));
    assert_eq!(answer(""), "bad too few words");
    assert_eq!(answer("play 1"), "bad command play");
    assert_eq!(answer("address_to_sample 1 2"), "bad word 2");
    assert_eq!(answer("measure 1,,2"), "bad number ");
    assert_eq!(answer(&format!("encode_frame 0 0 - {ZEROS}")), "bad 0 samples");
    assert_eq!(answer("process_frame 1,2"), "bad 2 numbers instead of 28");
    assert_eq!(answer(&format!("join {ZEROS} 0 {ZEROS} 00")), "bad bytes 0");
}
