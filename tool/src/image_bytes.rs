//! The bytes of an image: their places, and an image of frames that are encoded already.

use doilycairn::{Block, FrameContext, Head, Image, Loop, Refusal};

/// The bytes of the head, and of each entry of the table after it: one for each block, and one for the loop.
pub const HEAD: usize = 56;
pub const ENTRY: usize = 16;

/// A loop, and what it is played from.
pub type Turn = (Loop, FrameContext);

/// Bytes of an image.
pub fn size(image: &Image) -> usize {
    let Head { total, block, .. } = *image.head();
    let size = match image.looped() {
        None => doilycairn::image_size(total, block),
        Some(_) => doilycairn::loop_image_size(total, block),
    };
    size.unwrap_or(0)
}

/// Where the bodies of an image begin.
pub fn bodies_at(image: &Image) -> usize {
    place(image.head().blocks as usize, image.looped().is_some())
}

/// Where the bodies begin after the entries of so many blocks, and of a loop where there is one.
fn place(blocks: usize, looped: bool) -> usize {
    HEAD + ENTRY * (blocks + usize::from(looped))
}

/// The image of these frames: `contexts` has that of each block, `nibbles` counts headers too.
pub fn image(
    head: &Head,
    contexts: &[FrameContext],
    turn: Option<Turn>,
    bodies: &[u8],
    nibbles: u64,
) -> Vec<u8> {
    let blocks = contexts.len() as u32;
    let mut image = head_bytes(&Head { blocks, ..*head }, turn.is_some());
    for (k, context) in contexts.iter().enumerate() {
        let before = u64::from(head.block) * k as u64;
        let offset = place(contexts.len(), turn.is_some()) as u64 + before;
        let length = (nibbles - 2 * before).min(2 * u64::from(head.block));
        image.extend(entry_bytes(offset as u32, length as u32, context));
    }
    if let Some((points, context)) = turn {
        image.extend(entry_bytes(points.start, points.end, &context));
    }
    image.extend(bodies);
    image
}

/// The bodies of an image's blocks, which stand back to back.
pub fn bodies<'a>(image: &Image, bytes: &'a [u8]) -> &'a [u8] {
    let size: usize = image.blocks().map(|block| block.bytes.len()).sum();
    &bytes[bodies_at(image)..][..size]
}

/// The context of one of a block's frames.
pub fn context_at(block: &Block, frame: usize) -> Result<FrameContext, Refusal> {
    if frame == 0 {
        return Ok(block.context);
    }
    let mut played = vec![0; block.sample_count()];
    block.play(&mut played)?;
    Ok(FrameContext {
        predictor_and_scale: block.bytes[8 * frame].into(),
        last_samples: [played[14 * frame - 1], played[14 * frame - 2]],
    })
}

/// The head of an image.
fn head_bytes(head: &Head, looped: bool) -> Vec<u8> {
    let mut bytes = b"DSPC".to_vec();
    for field in [head.total, head.rate, head.block] {
        bytes.extend(field.to_be_bytes());
    }
    bytes.extend(head.coefficients.0.iter().flat_map(|c| c.to_be_bytes()));
    bytes.extend(head.gain.to_be_bytes());
    bytes.extend(u16::from(looped).to_be_bytes());
    bytes.extend(head.blocks.to_be_bytes());
    bytes
}

/// An entry of the table: a block's offset and length, or a loop's start and end, and the context.
fn entry_bytes(first: u32, second: u32, context: &FrameContext) -> Vec<u8> {
    let [newest, older] = context.last_samples;
    let mut bytes = first.to_be_bytes().to_vec();
    bytes.extend(second.to_be_bytes());
    bytes.extend(context.predictor_and_scale.to_be_bytes());
    bytes.extend(newest.to_be_bytes());
    bytes.extend(older.to_be_bytes());
    bytes.extend([0, 0]);
    bytes
}
