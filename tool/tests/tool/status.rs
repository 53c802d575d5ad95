//! Every exit status, of every command that can give it.

use crate::support::{Folder, image, looped, sound, wav};
use doilycairn::Image;

#[test]
fn every_status() {
    let folder = Folder::new();
    let clip = sound(280, 1);
    folder.write("in.wav", wav(&clip, 32_000));
    folder.write("none.wav", wav(&[], 32_000));
    folder.write("a", image(&clip, 32_000, 80));
    folder.write("b", image(&sound(280, 2), 32_000, 80));
    folder.write("rate", image(&clip, 8000, 80));
    folder.write("loop", looped(&clip, 80, (5, 17)));
    folder.write("bad", "x");
    let dsp = Image::open(&folder.read("loop")).unwrap().to_dsp().unwrap();
    folder.write("in.dsp", &dsp);
    folder.write("other.dsp", [&dsp[..95], &[1], &dsp[96..]].concat());
    folder.write("cut.dsp", &dsp[..95]);
    let cases = [
        (0, "encode in.wav out"),
        (2, "encode in.wav"),
        (3, "encode bad out"),
        (3, "encode --coefficients bad in.wav out"),
        (4, "encode none.wav out"),
        (5, "encode absent out"),
        (5, "encode in.wav absent/out"),
        (5, "encode in.wav ."),
        (0, "encode --loop 5,280 in.wav out"),
        (2, "encode --loop 5 in.wav out"),
        (2, "encode --loop 5,17 --wav-loop in.wav out"),
        (3, "encode --wav-loop in.wav out"),
        (4, "encode --loop 5,281 in.wav out"),
        (0, "decode a new"),
        (2, "decode a"),
        (4, "decode bad x"),
        (2, "decode --block 9 a new"),
        (0, "decode --force --from 279 --count 5 a new"),
        (0, "decode --force --count 0 a new"),
        (2, "decode --from 0 --block 0 a x"),
        (2, "decode --count x a x"),
        (4, "decode --from 280 a x"),
        (4, "decode --from 280 bad x"),
        (5, "decode --from 280 absent x"),
        (5, "decode --from 1 a /dev/full"),
        (0, "decode --force --loop 3 --lead-in loop new"),
        (2, "decode --loop 1 --from 5 loop x"),
        (2, "decode --lead-in loop x"),
        (2, "decode --loop 4294967295 loop x"),
        (3, "decode --loop 1 a x"),
        (4, "decode --loop 1 bad x"),
        (5, "decode --loop 1 loop /dev/full"),
        (2, "decode a out"),
        (2, "decode a in.wav"),
        (2, "encode in.wav new"),
        (5, "decode absent x"),
        (5, "decode . x"),
        (5, "decode a /dev/full"),
        (0, "decode in.dsp wav"),
        (0, "decode --lenient --force -q other.dsp wav"),
        (4, "decode other.dsp x"),
        (4, "decode cut.dsp x"),
        (0, "export a out.dsp"),
        (2, "export a"),
        (2, "export a b"),
        (4, "export bad x"),
        (5, "export absent x"),
        (5, "export a absent/x"),
        (0, "import in.dsp out.dspc"),
        (0, "import --lenient -q other.dsp out.dspc"),
        (2, "import in.dsp"),
        (2, "import --block-size 7 in.dsp x"),
        (4, "import other.dsp x"),
        (4, "import cut.dsp x"),
        (4, "import bad x"),
        (5, "import absent x"),
        (5, "import in.dsp /dev/full"),
        (0, "info in.dsp"),
        (0, "info --lenient -q other.dsp"),
        (4, "info other.dsp"),
        (0, "info a"),
        (2, "info"),
        (3, "info --against bad a"),
        (4, "info bad"),
        (5, "info absent"),
        (5, "info --against absent a"),
        (0, "check a"),
        (1, "check bad"),
        (2, "check"),
        (5, "check absent"),
        (0, "same a a"),
        (1, "same a b"),
        (2, "same a"),
        (1, "same a loop"),
        (0, "same --sound -q a loop"),
        (1, "same --sound a b"),
        (2, "same --sounds a b"),
        (4, "same a bad"),
        (4, "same --sound bad a"),
        (5, "same a absent"),
        (0, "join a a out"),
        (0, "join --drop-loop loop a out"),
        (2, "join a a"),
        (3, "join a loop out"),
        (3, "join --reencode loop a out"),
        (3, "join a rate out"),
        (4, "join a b out"),
        (4, "join a bad out"),
        (5, "join a absent out"),
        (5, "join a a absent/out"),
        (0, "trim --to 270 loop out"),
        (0, "trim --drop-loop loop out"),
        (0, "trim --from 14 a out"),
        (2, "trim --from 280 a out"),
        (2, "trim --to 281 a out"),
        (3, "trim --recording bad a out"),
        (4, "trim bad out"),
        (5, "trim absent out"),
        (0, "--help"),
        (2, "what"),
    ];
    for (status, line) in cases {
        let run = folder.run(line);
        assert_eq!(run.status, status, "{line}: {run:?}");
        assert_eq!(run.err.contains("doilycairn: "), status >= 2, "{line}: {run:?}");
    }
}
