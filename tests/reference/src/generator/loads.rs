//! Lists with loads between the calls. Frames cannot make a load, so these lists are no lines.

use super::Generator;
use crate::calls::{Call, Op};
use crate::texts::{self, Text};

/// A step of a list: a call of an op, or a load.
#[derive(Clone, Copy, Debug)]
pub enum Step {
    Call(Call),
    LoadRights(Text),
}

/// A list of `count` calls, with loads between them and the calls that lead up to these.
pub fn steps(seed: u64, count: u64) -> Vec<Step> {
    let mut generator = Generator::new(seed);
    let mut steps = Vec::new();
    for _ in 0..count {
        generator.load_now_and_then(&mut steps);
        generator.follow_mood();
        let call = generator.call();
        generator.run_step(&mut steps, Step::Call(call));
    }
    steps
}

impl Generator {
    fn run_step(&mut self, steps: &mut Vec<Step>, step: Step) {
        match step {
            Step::Call(call) => self.run(call),
            Step::LoadRights(text) => {
                self.machine.state.load_rights(text.bytes());
            }
        }
        steps.push(step);
    }

    /// Often where no thread is started, seldom where some are; now and then after all of them were
    /// led out.
    fn load_now_and_then(&mut self, steps: &mut Vec<Step>) {
        let chance = if self.started().is_empty() { 50 } else { 3 };
        if self.random.percent(chance) {
            self.load_any(steps);
        }
        if self.random.below(200) == 0 {
            self.load_at_rest(steps);
        }
    }

    fn load_any(&mut self, steps: &mut Vec<Step>) {
        let text = texts::any(&mut self.random);
        self.run_step(steps, Step::LoadRights(text));
    }

    /// Every thread leaves its areas and ends; after the load they are started again.
    fn load_at_rest(&mut self, steps: &mut Vec<Step>) {
        let threads = self.machine.state.threads.clone();
        let started = (0..).zip(&threads).filter_map(|(number, thread)| {
            let kind = thread.kind? as u64;
            Some((number, kind, thread.stack.len()))
        });
        let mut restarts = Vec::new();
        for (thread, kind, entries) in started {
            let exits = std::iter::repeat_n(Op::Exit, entries);
            for op in exits.chain([Op::End]) {
                self.run_step(steps, Step::Call(Call { thread, op }));
            }
            let op = Op::Start { kind };
            restarts.push(Step::Call(Call { thread, op }));
        }
        self.load_any(steps);
        for step in restarts {
            self.run_step(steps, step);
        }
    }
}
