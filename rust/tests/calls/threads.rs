//! No state is shared: calls on many threads give what one thread gives.

use crate::clips::{encode, noise};
use doilycairn::{Encoder, EncoderState, Image, Measure, Refusal, Samples};

fn is_send_and_sync<T: Send + Sync>() {}

#[test]
fn types_may_be_sent_and_shared() {
    is_send_and_sync::<Measure>();
    is_send_and_sync::<Encoder>();
    is_send_and_sync::<EncoderState>();
    is_send_and_sync::<Image>();
    is_send_and_sync::<Samples>();
    is_send_and_sync::<Refusal>();
}

#[test]
fn many_at_once() {
    let clips: Vec<_> = (0..8).map(|seed| noise(3000, 12_000, seed)).collect();
    let alone: Vec<_> = clips.iter().map(|clip| encode(clip, 256)).collect();
    let together = std::thread::scope(|scope| {
        let runs: Vec<_> =
            clips.iter().map(|clip| scope.spawn(move || encode(clip, 256))).collect();
        runs.into_iter().map(|run| run.join().unwrap()).collect::<Vec<_>>()
    });
    assert_eq!(together, alone);
}
