//! Starting, feeding and closing as a C program does, every field of the state.

use crate::c_calls::context;
use crate::ffi::{Context, Loop};
use crate::tally::Tally;
use clip_list::{Case, MOST_ROOM, Machine, Start, State, Step};
use std::mem::offset_of;

/// `doilycairn_history`.
#[repr(C)]
#[derive(Debug, Clone, Copy, Default, PartialEq)]
pub struct History {
    newest: i16,
    older: i16,
}

/// `doilycairn_encoder`; its `bool` as a byte, so that any byte can be compared.
#[repr(C)]
#[derive(Debug, Clone, Copy, Default, PartialEq)]
pub struct Encoder {
    total: u32,
    rate: u32,
    block: u32,
    gain: u16,
    coefficients: [i16; 16],
    fed: u32,
    history: History,
    frame: [i16; 14],
    passes: u32,
    closed: u8,
    looped: Loop,
    pub loop_context: Context,
}

/// `doilycairn_encoding`.
#[repr(C)]
#[derive(Debug, Clone, Copy, PartialEq)]
pub struct Encoding {
    pub code: u32,
    pub encoder: Encoder,
}

const _: () = assert!(size_of::<Encoder>() == 112 && offset_of!(Encoder, closed) == 88);
const _: () =
    assert!(offset_of!(Encoder, looped) == 92 && offset_of!(Encoder, loop_context) == 104);
const _: () = assert!(size_of::<Encoding>() == 116 && offset_of!(Encoding, encoder) == 4);

mod raw {
    use super::*;

    // SAFETY: names, arguments and results are those of include/doilycairn.h.
    unsafe extern "C" {
        pub fn doilycairn_start(
            total: u32,
            rate: u32,
            block_size: u32,
            gain: u16,
            coefficients: *const i16,
            history: History,
            image: *mut u8,
            image_len: usize,
        ) -> Encoding;
        pub fn doilycairn_start_loop(
            total: u32,
            rate: u32,
            block_size: u32,
            gain: u16,
            coefficients: *const i16,
            history: History,
            loop_start: u32,
            loop_end: u32,
            image: *mut u8,
            image_len: usize,
        ) -> Encoding;
        pub fn doilycairn_feed(
            encoder: Encoder,
            piece: *const i16,
            piece_len: usize,
            image: *mut u8,
            image_len: usize,
        ) -> Encoding;
        pub fn doilycairn_close(encoder: Encoder, image: *mut u8, image_len: usize) -> Encoding;
    }
}

/// Starts a clip, with its loop where it has one.
fn start(start: &Start, image: &mut [u8]) -> Encoding {
    let Start { total, rate, size, gain, ref coefficients, history, looped } = *start;
    let [newest, older] = history;
    let (history, coefficients) = (History { newest, older }, coefficients.as_ptr());
    let (bytes, len) = (image.as_mut_ptr(), image.len());
    // SAFETY: the slice is passed with its own length; sixteen coefficients lie outside it.
    unsafe {
        match looped {
            None => {
                raw::doilycairn_start(total, rate, size, gain, coefficients, history, bytes, len)
            }
            Some(clip_list::Loop { start, end }) => raw::doilycairn_start_loop(
                total,
                rate,
                size,
                gain,
                coefficients,
                history,
                start,
                end,
                bytes,
                len,
            ),
        }
    }
}

fn feed(encoder: Encoder, piece: &[i16], image: &mut [u8]) -> Encoding {
    let (samples, bytes) = (piece.as_ptr(), image.as_mut_ptr());
    // SAFETY: both slices are passed with their own lengths; only `image` is written.
    unsafe { raw::doilycairn_feed(encoder, samples, piece.len(), bytes, image.len()) }
}

fn close(encoder: Encoder, image: &mut [u8]) -> Encoding {
    // SAFETY: the slice is passed with its own length.
    unsafe { raw::doilycairn_close(encoder, image.as_mut_ptr(), image.len()) }
}

/// A state as C has it.
fn encoder(state: &State) -> Encoder {
    let clip_list::LoopState { start, end, present } = state.looped;
    let [newest, older] = state.history;
    Encoder {
        total: state.total,
        rate: state.rate,
        block: state.block,
        gain: state.gain,
        coefficients: state.coefficients,
        fed: state.fed,
        history: History { newest, older },
        frame: state.frame,
        passes: state.passes,
        closed: state.closed.into(),
        looped: Loop { start, end, present: present.into() },
        loop_context: context(state.loop_context),
    }
}

/// Each call's answer, and the whole buffer after it; gives the buffer.
pub fn compare(case: &Case, tally: &mut Tally) -> Vec<u8> {
    let mut machine = Machine::default();
    let (mut now, mut image) = (Encoder::default(), machine.image.clone());
    for step in &case.0 {
        let code = machine.take(step).into();
        let (what, answer) = match step {
            Step::New => {
                image = (0..MOST_ROOM).map(|place| (place % 251) as u8).collect();
                continue;
            }
            Step::Put(state) => {
                now = encoder(state);
                continue;
            }
            Step::Start { start: clip, room, .. } => ("C start", start(clip, &mut image[..*room])),
            Step::Feed { piece, room, .. } => ("C feed", feed(now, piece, &mut image[..*room])),
            Step::Close { room, .. } => ("C close", close(now, &mut image[..*room])),
        };
        let right = Encoding { code, encoder: encoder(&machine.state) };
        tally.compare(what, case, answer, right);
        tally.compare("C buffer", case, image.clone(), machine.image.clone());
        now = answer.encoder;
    }
    image
}
