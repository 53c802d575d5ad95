//! Coefficients, gain and contexts as bytes.

use crate::Coefficients;
use unplug::audio::format::adpcm::{FrameContext, Info};
use unplug::common::{ReadFrom, WriteTo};

/// The forty bytes of coefficients, gain and context, as `Info` writes them.
pub fn info_bytes(coefficients: &Coefficients, gain: u16, context: FrameContext) -> Vec<u8> {
    let mut bytes = vec![];
    let info = Info { coefficients: *coefficients, gain, context };
    info.write_to(&mut bytes).unwrap();
    bytes
}

/// Coefficients, gain and context, as `Info` reads them.
pub fn read_info(mut bytes: &[u8]) -> (Coefficients, u16, FrameContext) {
    let Info { coefficients, gain, context } = Info::read_from(&mut bytes).unwrap();
    (coefficients, gain, context)
}

/// The six bytes of a context, as `FrameContext` writes them.
pub fn context_bytes(context: FrameContext) -> Vec<u8> {
    let mut bytes = vec![];
    context.write_to(&mut bytes).unwrap();
    bytes
}

/// A context, as `FrameContext` reads it.
pub fn read_context(mut bytes: &[u8]) -> FrameContext {
    FrameContext::read_from(&mut bytes).unwrap()
}
