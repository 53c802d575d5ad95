//! A .dsp file taken apart: "The 96-byte header, big-endian", and what follows it.

use clip_list::Loop;
use image_list::reader::{long, word};
use oracle::{
    Coefficients, FrameContext, SAMPLES_PER_FRAME, context_bytes, info_bytes, read_context,
    read_info, sample_to_address,
};

/// The bytes of the header.
pub const HEADER: usize = 96;

/// The fields of the header, in their order.
#[derive(Debug, Clone, Copy, Default, PartialEq)]
pub struct Header {
    pub total: u32,
    pub nibbles: u32,
    pub rate: u32,
    pub flag: u16,
    pub zero: u16,
    pub start: u32,
    pub last: u32,
    /// "24 the number 2".
    pub two: u32,
    pub coefficients: Coefficients,
    pub gain: u16,
    pub first: FrameContext,
    pub looped: FrameContext,
    /// "zeros to 96".
    pub rest: [u8; 22],
}

impl Header {
    /// The fields of 96 bytes; those from 28 to 73 as the Rust's `Info` and `FrameContext` read them.
    pub fn read(file: &[u8]) -> Self {
        let (coefficients, gain, first) = read_info(&file[28..68]);
        Self {
            total: long(file, 0),
            nibbles: long(file, 4),
            rate: long(file, 8),
            flag: word(file, 12),
            zero: word(file, 14),
            start: long(file, 16),
            last: long(file, 20),
            two: long(file, 24),
            coefficients,
            gain,
            first,
            looped: read_context(&file[68..74]),
            rest: std::array::from_fn(|place| file[74 + place]),
        }
    }

    /// The 96 bytes; those from 28 to 73 as the Rust's `Info` and `FrameContext` write them.
    pub fn bytes(&self) -> Vec<u8> {
        let counts = [self.total, self.nibbles, self.rate].map(u32::to_be_bytes).concat();
        let flags = [self.flag, self.zero].map(u16::to_be_bytes).concat();
        let addresses = [self.start, self.last, self.two].map(u32::to_be_bytes).concat();
        let info = info_bytes(&self.coefficients, self.gain, self.first);
        let looped = context_bytes(self.looped);
        [counts, flags, addresses, info, looped, self.rest.to_vec()].concat()
    }
}

/// A header, and the bytes after it.
#[derive(Debug, Clone, Default, PartialEq)]
pub struct File {
    pub header: Header,
    pub bodies: Vec<u8>,
}

impl File {
    /// A file of 96 bytes or more.
    pub fn read(file: &[u8]) -> Self {
        Self { header: Header::read(file), bodies: file[HEADER..].to_vec() }
    }

    pub fn bytes(&self) -> Vec<u8> {
        [&self.header.bytes()[..], &self.bodies].concat()
    }

    /// The header byte of the frame that holds a sample.
    pub fn header_at(&self, sample: u32) -> u8 {
        self.bodies[8 * (sample as usize / SAMPLES_PER_FRAME)]
    }

    /// Puts a loop with a history, or none: "Loop fields are zero without a loop".
    pub fn put_loop(&mut self, looped: Option<Loop>, last_samples: [i16; 2]) {
        let Some(Loop { start, end }) = looped else {
            self.header = Header {
                flag: 0,
                start: 0,
                last: 0,
                looped: FrameContext::default(),
                ..self.header
            };
            return;
        };
        let [first, last] =
            [start, end - 1].map(|sample| sample_to_address(sample as usize) as u32);
        let predictor_and_scale = self.header_at(start).into();
        let context = FrameContext { predictor_and_scale, last_samples };
        self.header = Header { flag: 1, start: first, last, looped: context, ..self.header };
    }
}
