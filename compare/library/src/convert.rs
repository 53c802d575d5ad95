//! From the library's types to the Rust's, and back.

use clip_list::{Loop, LoopState, Start, State};
use doilycairn::{Coefficients, EncoderState, Refusal};
use image_list::reader::Refused;
use oracle::{FrameContext, History};

/// The number of a refusal.
pub fn number(refusal: Refusal) -> u8 {
    refusal.number() as u8
}

/// The number of a refusal and the block that it names.
pub fn refused(refusal: Refusal) -> Refused {
    Refused { code: number(refusal), block: refusal.block().unwrap_or(0) }
}

pub fn history(history: doilycairn::History) -> History {
    [history.newest, history.older]
}

pub fn library_history([newest, older]: History) -> doilycairn::History {
    doilycairn::History { newest, older }
}

pub fn context(context: doilycairn::FrameContext) -> FrameContext {
    let doilycairn::FrameContext { predictor_and_scale, last_samples } = context;
    FrameContext { predictor_and_scale, last_samples }
}

pub fn library_context(context: FrameContext) -> doilycairn::FrameContext {
    let FrameContext { predictor_and_scale, last_samples } = context;
    doilycairn::FrameContext { predictor_and_scale, last_samples }
}

pub fn looped(looped: doilycairn::Loop) -> Loop {
    let doilycairn::Loop { start, end } = looped;
    Loop { start, end }
}

fn library_loop(looped: Loop) -> doilycairn::Loop {
    let Loop { start, end } = looped;
    doilycairn::Loop { start, end }
}

fn loop_state(looped: doilycairn::LoopState) -> LoopState {
    let doilycairn::LoopState { start, end, present } = looped;
    LoopState { start, end, present }
}

fn library_loop_state(looped: LoopState) -> doilycairn::LoopState {
    let LoopState { start, end, present } = looped;
    doilycairn::LoopState { start, end, present }
}

pub fn library_start(start: &Start) -> doilycairn::Start {
    doilycairn::Start {
        total: start.total,
        rate: start.rate,
        block_size: start.size,
        gain: start.gain,
        coefficients: Coefficients(start.coefficients),
        history: library_history(start.history),
        looped: start.looped.map(library_loop),
    }
}

pub fn state(state: &EncoderState) -> State {
    State {
        total: state.total,
        rate: state.rate,
        block: state.block,
        gain: state.gain,
        coefficients: state.coefficients.0,
        history: history(state.history),
        fed: state.fed,
        passes: state.passes,
        frame: state.frame,
        closed: state.closed,
        looped: loop_state(state.looped),
        loop_context: context(state.loop_context),
    }
}

pub fn library_state(state: &State) -> EncoderState {
    EncoderState {
        total: state.total,
        rate: state.rate,
        block: state.block,
        gain: state.gain,
        coefficients: Coefficients(state.coefficients),
        fed: state.fed,
        history: library_history(state.history),
        frame: state.frame,
        passes: state.passes,
        closed: state.closed,
        looped: library_loop_state(state.looped),
        loop_context: library_context(state.loop_context),
    }
}
