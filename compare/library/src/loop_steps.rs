//! The calls that encode a clip: in random cuts, with refused calls and undone pieces in between.

use clip_list::{Case, Machine, Start, State, Step, broken_loop};
use oracle::random::Random;

/// Steps that are being made, and the state that they lead to.
struct Steps<'r> {
    random: &'r mut Random,
    machine: Machine,
    steps: Vec<Step>,
    room: usize,
}

/// A clip from start to close; what is undone is fed and closed otherwise before.
pub fn loop_steps(random: &mut Random, start: &Start, samples: &[i16]) -> Case {
    let room = start.image_size() as usize + random.below_one(&[1, 40]);
    let pieces = random.cut(samples);
    let mut steps = Steps { random, machine: Machine::default(), steps: vec![], room };
    steps.take(Step::New);
    steps.refused_start(start);
    steps.take(Step::Start { start: start.clone(), room, shown: false });
    for piece in pieces {
        steps.refused_call();
        if steps.random.below(8) == 0 {
            steps.undone();
        }
        steps.feed(piece.to_vec());
    }
    if steps.random.below(4) == 0 {
        steps.undone();
    }
    steps.close();
    steps.refused_call();
    if steps.random.below(4) == 0 {
        steps.feed(vec![]);
        steps.close();
    }
    Case(steps.steps)
}

impl Steps<'_> {
    fn take(&mut self, step: Step) {
        self.machine.take(&step);
        self.steps.push(step);
    }

    fn feed(&mut self, piece: Vec<i16>) {
        self.take(Step::Feed { piece, room: self.room, shown: false });
    }

    fn close(&mut self) {
        self.take(Step::Close { room: self.room, shown: false });
    }

    fn state(&self) -> State {
        self.machine.state.clone()
    }

    /// The samples that the clip still lacks.
    fn left(&self) -> usize {
        (self.machine.state.total - self.machine.state.fed) as usize
    }

    /// Sometimes a start that is refused by 23, by 8 or by 7.
    fn refused_start(&mut self, good: &Start) {
        let (mut start, mut room) = (good.clone(), self.room);
        match self.random.below(12) {
            0 | 1 => start.looped = Some(broken_loop(self.random, good.total)),
            2 => room = good.image_size() as usize - 1 - self.random.below(17),
            3 => {
                start.looped = Some(broken_loop(self.random, good.total));
                start.coefficients = self.random.with_pair_beyond(start.coefficients);
            }
            _ => return,
        }
        self.take(Step::Start { start, room, shown: false });
    }

    /// Sometimes a call that is refused: by 8, 9, 10 or 11, or by 1 from a state with a broken loop, which is put right after it.
    fn refused_call(&mut self) {
        let state = self.state();
        let needed = state.image_size() as usize;
        let piece = self.random.clip(self.left() + 1);
        match self.random.below(24) {
            0 => self.feed(piece),
            1 => {
                let room = needed - 1 - self.random.below(17);
                self.take(Step::Feed { piece: vec![], room, shown: false });
            }
            2 => self.take(Step::Close { room: needed - 1, shown: false }),
            3 if self.left() > 0 => self.close(),
            4 => {
                let looped = Some(broken_loop(self.random, state.total)).into();
                self.take(Step::Put(State { looped, ..state.clone() }));
                self.feed(vec![]);
                self.close();
                self.take(Step::Put(state));
            }
            _ => {}
        }
    }

    /// Other samples, up to the end and closed sometimes; then the state from before them, with the buffer as they left it.
    fn undone(&mut self) {
        let before = self.state();
        let left = self.left();
        let len = [left, self.random.below(left + 1)][self.random.below(2)];
        let piece = self.random.clip(len);
        self.feed(piece);
        self.close();
        self.take(Step::Put(before));
    }
}
