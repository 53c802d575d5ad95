//! Coefficients from a file.

use crate::parse::Value;
use crate::support::{Folder, image, image_with, sound, wav};
use doilycairn::{Coefficients, History, Image};

#[test]
fn from_text_and_from_an_image() {
    let folder = Folder::new();
    let clip = sound(2000, 10);
    let given: [i16; 16] = std::array::from_fn(|i| 1000 - 100 * i as i16);
    let wanted = image_with(&clip, 8000, 8192, Coefficients(given), History::default());
    folder.write("in.wav", wav(&clip, 8000));
    folder.write("c.txt", given.map(|c| c.to_string()).join("\n") + " # said\n");
    folder.done("encode --coefficients c.txt in.wav a.dspc");
    assert_eq!(folder.read("a.dspc"), wanted);
    folder.done("encode --coefficients a.dspc in.wav b.dspc");
    assert_eq!(folder.read("b.dspc"), wanted);
}

#[test]
fn what_is_none_is_refused() {
    let folder = Folder::new();
    folder.write("in.wav", wav(&sound(100, 1), 8000));
    folder.write("few", "1 2 3");
    folder.write("words", "one two");
    folder.write("noise", [0xff; 100]);
    let mut damaged = image(&sound(100, 1), 8000, 8);
    damaged[56] = 1;
    folder.write("damaged", damaged);
    let run = |file: &str| folder.run(&format!("encode --coefficients {file} in.wav out"));
    run("few").expect(3, "few: 3 coefficients; sixteen are needed");
    run("words").expect(3, "words: line 1: 'one' is not a number");
    run("noise").expect(3, "is not a number");
    run("damaged").expect(4, "(refusal 20); byte 56: its offset is ");
    run("absent").expect(5, "cannot read absent");
    assert!(!folder.has("out"));
}

/// A bank made by hand, larger than measured ones, as text.
const OLDER: &str = "\
    8192 -4096    # c0 and c1 of each pair
    30720 -30720
    -32768 28672
    32767 28673
    3000,-1000
    4097,0
    0,2049
    -28672,-32768
";

/// Its numbers.
fn older() -> Coefficients {
    Coefficients([
        8192, -4096, 30_720, -30_720, -32_768, 28_672, 32_767, 28_673, 3000, -1000, 4097, 0, 0,
        2049, -28_672, -32_768,
    ])
}

#[test]
fn an_older_bank_goes_the_whole_way() {
    let folder = Folder::new();
    let clip = sound(2800, 11);
    let wanted = image_with(&clip, 32_000, 8192, older(), History::default());
    folder.write("in.wav", wav(&clip, 32_000));
    folder.write("bank", OLDER);
    let run = folder.done("encode --verify --json --coefficients bank in.wav a");
    let json = Value::of_line(&run.out);
    let has_bound = |line: &&Value| line.number("exponent") < 12.0;
    assert!(json.get("verify").list("by_exponent").iter().filter(has_bound).count() > 2);
    assert_eq!(folder.read("a"), wanted);
    let out = folder.done("info --against in.wav a").out;
    for line in ["        0    8,192   -4,096  ", "        7  -28,672  -32,768  "] {
        assert!(out.contains(line), "{out}");
    }
    folder.done("decode a played.wav");
    let played = Image::open(&wanted).unwrap().play().unwrap();
    assert_eq!(folder.read("played.wav"), wav(&played, 32_000));
    assert!(folder.done("check --strict a").out.contains("opens and plays"));
    // From an image, by a clip that goes on, and where a trim encodes again.
    folder.done("encode --coefficients a in.wav b");
    assert_eq!(folder.read("b"), wanted);
    folder.done("encode --verify --after a in.wav b");
    folder.done("join a b whole");
    assert_eq!(Image::open(&folder.read("whole")).unwrap().head().coefficients, older());
    folder.done("trim --from 5 a part");
    assert_eq!(Image::open(&folder.read("part")).unwrap().head().coefficients, older());
    folder.done("check --strict whole part");
}

#[test]
fn a_pair_above_61440_is_refused_by_its_number_and_its_file() {
    let folder = Folder::new();
    let clip = sound(280, 12);
    folder.write("in.wav", wav(&clip, 32_000));
    let mut bytes = image_with(&clip, 32_000, 8192, older(), History::default());
    for (pair, (c0, c1), words) in [
        (0, (32_767, 28_674), "pair 0 of 0 to 7 is 32,767 and 28,674, which makes 61,441"),
        (3, (-32_768, 28_673), "pair 3 of 0 to 7 is -32,768 and 28,673, which makes 61,441"),
        (7, (-30_721, -30_720), "pair 7 of 0 to 7 is -30,721 and -30,720, which makes 61,441"),
        (6, (-32_768, 32_767), "pair 6 of 0 to 7 is -32,768 and 32,767, which makes 65,535"),
    ] {
        let mut coefficients = older();
        coefficients.0[2 * pair..2 * pair + 2].copy_from_slice(&[c0, c1]);
        folder.write("wide", coefficients.0.map(|c| c.to_string()).join(" "));
        bytes[16..48].copy_from_slice(&coefficients.0.map(i16::to_be_bytes).concat());
        folder.write("image", &bytes);
        let refused = "a pair of coefficients has |c0| + |c1| above 61,440 (refusal 7)";
        for (line, name) in [
            ("encode --coefficients wide in.wav out", "wide"),
            ("encode --coefficients image in.wav out", "image"),
            ("encode --after image in.wav out", "image"),
            ("trim --from 5 image out", "image"),
        ] {
            folder.run(line).expect(4, &format!("doilycairn: {name}: {refused}; {words}\n"));
            assert!(!folder.has("out"));
        }
        // It opens and plays: code 7 is asked where a clip is encoded.
        folder.done("check image");
        folder.done("trim --from 14 image part");
    }
}
