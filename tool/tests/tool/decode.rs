//! `decode`.

use crate::support::{Folder, image, raw, sound, wav};
use doilycairn::Image;

#[test]
fn the_samples_are_the_librarys() {
    let folder = Folder::new();
    for (len, size) in [(1, 8), (14, 8), (15, 8), (1000, 64), (40_000, 8192), (40_000, 65_536)] {
        let bytes = image(&sound(len, 7), 32_000, size);
        let played = Image::open(&bytes).unwrap().play().unwrap();
        folder.write("in.dspc", &bytes);
        folder.done("decode --force in.dspc out.wav");
        assert_eq!(folder.read("out.wav"), wav(&played, 32_000), "{len} {size}");
        folder.done("decode --raw in.dspc out.raw");
        assert_eq!(folder.read("out.raw"), raw(&played));
        let piped = folder.feed("decode - -", &bytes);
        assert_eq!((piped.status, piped.bytes), (0, wav(&played, 32_000)));
    }
}

#[test]
fn blocks_one_by_one_are_the_clip() {
    let folder = Folder::new();
    let bytes = image(&sound(1001, 8), 32_000, 80);
    folder.write("in.dspc", &bytes);
    folder.done("decode --raw in.dspc whole");
    let blocks = Image::open(&bytes).unwrap().head().blocks;
    let mut joined = vec![];
    for k in 0..blocks {
        joined.extend(folder.done(&format!("decode --raw --block {k} in.dspc -")).bytes);
    }
    assert_eq!(joined, folder.read("whole"));
    let line = format!("decode --block {blocks} in.dspc none");
    folder.run(&line).expect(2, "--block: '8' is not a number from 0 to 7: in.dspc has 8 blocks");
    folder
        .run("decode --block 99999999999 in.dspc none")
        .expect(2, "'99999999999' is not a number");
    assert!(!folder.has("none"));
}

#[test]
fn bytes_after_the_image_are_left_out() {
    let folder = Folder::new();
    let mut bytes = image(&sound(100, 9), 32_000, 80);
    folder.write("plain", &bytes);
    bytes.extend([1; 1000]);
    folder.write("more", &bytes);
    folder.done("decode plain a");
    folder.done("decode more b");
    assert_eq!(folder.read("a"), folder.read("b"));
    assert!(folder.done("check more").out.contains("1,000 bytes after the image"));
    assert!(folder.done("info more").out.contains("1,000 bytes that do not belong to it"));
}

#[test]
fn any_rate_is_kept() {
    let folder = Folder::new();
    for rate in [1, 44_100, u32::MAX] {
        folder.write("in.dspc", image(&[1, 2, 3], rate, 8));
        folder.done("decode --force in.dspc out.wav");
        assert_eq!(folder.read("out.wav")[24..28], rate.to_le_bytes());
        folder.done("encode out.wav again.dspc");
        assert_eq!(folder.read("again.dspc")[8..12], rate.to_be_bytes());
    }
}
