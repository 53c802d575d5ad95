//! Folders, clips, files and runs.

use doilycairn::{Coefficients, Encoder, History, Loop, Start};
use std::ffi::OsStr;
use std::fs;
use std::io::Write;
use std::path::{Path, PathBuf};
use std::process::{Command, Output, Stdio};
use std::sync::atomic::{AtomicU32, Ordering};

pub const TOOL: &str = env!("CARGO_BIN_EXE_doilycairn");

/// A folder of a test's own; it goes when the test ends.
pub struct Folder(pub PathBuf);

impl Folder {
    pub fn new() -> Self {
        static COUNT: AtomicU32 = AtomicU32::new(0);
        let number = COUNT.fetch_add(1, Ordering::Relaxed);
        let name = format!("tool-{}-{number}", std::process::id());
        let path = Path::new(env!("CARGO_TARGET_TMPDIR")).join(name);
        fs::create_dir_all(&path).unwrap();
        Self(path)
    }

    pub fn path(&self, name: &str) -> PathBuf {
        self.0.join(name)
    }

    pub fn write(&self, name: &str, bytes: impl AsRef<[u8]>) {
        fs::write(self.path(name), bytes).unwrap();
    }

    pub fn read(&self, name: &str) -> Vec<u8> {
        fs::read(self.path(name)).unwrap()
    }

    pub fn has(&self, name: &str) -> bool {
        self.path(name).exists()
    }

    /// The names in it, sorted.
    pub fn names(&self) -> Vec<String> {
        let names = fs::read_dir(&self.0).unwrap();
        let mut names: Vec<_> =
            names.map(|entry| entry.unwrap().file_name().into_string().unwrap()).collect();
        names.sort();
        names
    }

    /// The tool, to be run in this folder.
    pub fn tool<S: AsRef<OsStr>>(&self, words: &[S]) -> Command {
        let mut command = Command::new(TOOL);
        command.current_dir(&self.0).args(words).stdin(Stdio::null());
        command
    }

    /// Runs the tool with words that are apart by blanks.
    pub fn run(&self, line: &str) -> Run {
        let words: Vec<&str> = line.split_whitespace().collect();
        Run::of(&self.tool(&words).output().unwrap())
    }

    /// Runs the tool and gives its standard input these bytes.
    pub fn feed(&self, line: &str, bytes: &[u8]) -> Run {
        let words: Vec<&str> = line.split_whitespace().collect();
        let mut command = self.tool(&words);
        command.stdin(Stdio::piped()).stdout(Stdio::piped()).stderr(Stdio::piped());
        let mut child = command.spawn().unwrap();
        let mut input = child.stdin.take().unwrap();
        let bytes = bytes.to_vec();
        let feeder = std::thread::spawn(move || drop(input.write_all(&bytes)));
        let output = child.wait_with_output().unwrap();
        feeder.join().unwrap();
        Run::of(&output)
    }

    /// Runs it and expects it to be done.
    pub fn done(&self, line: &str) -> Run {
        let run = self.run(line);
        assert_eq!(run.status, 0, "{line}: {}", run.err);
        run
    }
}

impl Drop for Folder {
    fn drop(&mut self) {
        let _ = fs::remove_dir_all(&self.0);
    }
}

/// What a run gave.
#[derive(Debug)]
pub struct Run {
    pub status: i32,
    pub bytes: Vec<u8>,
    pub out: String,
    pub err: String,
}

impl Run {
    pub fn of(output: &Output) -> Self {
        Self {
            status: output.status.code().expect("ended by a signal"),
            bytes: output.stdout.clone(),
            out: String::from_utf8_lossy(&output.stdout).into_owned(),
            err: String::from_utf8_lossy(&output.stderr).into_owned(),
        }
    }

    /// Expects a status, and words on standard error.
    #[track_caller]
    pub fn expect(&self, status: i32, words: &str) {
        assert_eq!(self.status, status, "{self:?}");
        assert!(self.err.contains(words), "'{words}' is not in: {}", self.err);
    }
}

/// Numbers that follow from a seed (SplitMix64).
pub struct Random(pub u64);

impl Random {
    pub fn next(&mut self) -> u64 {
        self.0 = self.0.wrapping_add(0x9e37_79b9_7f4a_7c15);
        let z = (self.0 ^ (self.0 >> 30)).wrapping_mul(0xbf58_476d_1ce4_e5b9);
        let z = (z ^ (z >> 27)).wrapping_mul(0x94d0_49bb_1331_11eb);
        z ^ (z >> 31)
    }

    pub fn below(&mut self, count: u64) -> u64 {
        self.next() % count
    }
}

/// Two tones, and noise that follows from a seed.
pub fn sound(len: usize, seed: u64) -> Vec<i16> {
    let mut random = Random(seed);
    let sample = |i: usize| {
        let t = i as f64;
        let noise = random.below(601) as f64 - 300.0;
        (9000.0 * (t * 0.05).sin() + 4000.0 * (t * 0.013).sin() + noise) as i16
    };
    (0..len).map(sample).collect()
}

pub fn raw(samples: &[i16]) -> Vec<u8> {
    samples.iter().flat_map(|sample| sample.to_le_bytes()).collect()
}

pub fn chunk(id: &[u8; 4], body: &[u8]) -> Vec<u8> {
    let mut bytes = id.to_vec();
    bytes.extend((body.len() as u32).to_le_bytes());
    bytes.extend(body);
    bytes.resize(bytes.len().next_multiple_of(2), 0);
    bytes
}

/// A fmt chunk's body.
pub fn format(tag: u16, channels: u16, rate: u32, bits: u16) -> Vec<u8> {
    let align = channels * bits.div_ceil(8);
    let mut body = [tag.to_le_bytes(), channels.to_le_bytes()].concat();
    body.extend(rate.to_le_bytes());
    body.extend((rate * u32::from(align)).to_le_bytes());
    body.extend(align.to_le_bytes());
    body.extend(bits.to_le_bytes());
    body
}

/// A RIFF file of these chunks.
pub fn riff(chunks: &[Vec<u8>]) -> Vec<u8> {
    let body = [b"WAVE".to_vec(), chunks.concat()].concat();
    chunk(b"RIFF", &body)
}

pub fn wav(samples: &[i16], rate: u32) -> Vec<u8> {
    riff(&[chunk(b"fmt ", &format(1, 1, rate, 16)), chunk(b"data", &raw(samples))])
}

/// What the library encodes, measured.
pub fn image(samples: &[i16], rate: u32, block_size: u32) -> Vec<u8> {
    let coefficients = Coefficients::measure(samples).unwrap();
    image_with(samples, rate, block_size, coefficients, History::default())
}

pub fn image_with(
    samples: &[i16],
    rate: u32,
    block_size: u32,
    coefficients: Coefficients,
    history: History,
) -> Vec<u8> {
    let total = samples.len() as u32;
    encoded(
        &Start { total, rate, block_size, gain: 0, coefficients, history, looped: None },
        samples,
    )
}

/// What the library encodes, measured, with a loop, at 32,000 Hz.
pub fn looped(samples: &[i16], block_size: u32, points: (u32, u32)) -> Vec<u8> {
    let coefficients = Coefficients::measure(samples).unwrap();
    looped_with(samples, block_size, coefficients, History::default(), points)
}

pub fn looped_with(
    samples: &[i16],
    block_size: u32,
    coefficients: Coefficients,
    history: History,
    (start, end): (u32, u32),
) -> Vec<u8> {
    let (total, looped) = (samples.len() as u32, Some(Loop { start, end }));
    let start = Start { total, rate: 32_000, block_size, gain: 0, coefficients, history, looped };
    encoded(&start, samples)
}

/// A ramp of 20 samples, whose played difference is its nibble.
pub fn ramp() -> Vec<i16> {
    (0..20).map(|i| 1000 + 6 * i).collect()
}

/// What the library encodes from the ramp.
pub fn ramp_image(block_size: u32, points: Option<(u32, u32)>) -> Vec<u8> {
    let mut coefficients = Coefficients::default();
    coefficients.0[0] = 2048;
    let history = History { newest: 1000, older: 990 };
    let looped = points.map(|(start, end)| Loop { start, end });
    let start =
        Start { total: 20, rate: 32_000, block_size, gain: 7, coefficients, history, looped };
    encoded(&start, &ramp())
}

/// What the library encodes from pieces of 77 samples.
pub fn encoded(start: &Start, samples: &[i16]) -> Vec<u8> {
    let mut encoder = Encoder::start(start).unwrap();
    samples.chunks(77).for_each(|piece| encoder.feed(piece).unwrap());
    encoder.close().unwrap();
    encoder.into_parts().1
}

/// A smpl chunk of loops: how each is played (0 is forwards), its first and its last sample.
pub fn sampler(loops: &[(u32, u32, u32)]) -> Vec<u8> {
    let mut body = vec![0; 28];
    body.extend((loops.len() as u32).to_le_bytes());
    body.extend([0; 4]);
    for (kind, first, last) in loops {
        for field in [0, *kind, *first, *last, 0, 0] {
            body.extend(field.to_le_bytes());
        }
    }
    chunk(b"smpl", &body)
}
