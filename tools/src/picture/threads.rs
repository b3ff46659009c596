//! The lanes of the threads: their calls, their stacks of areas, their kinds.

use super::colours;
use super::drawing::{Drawing, NAME};
use super::glyphs::{self, bar, Link};
use super::layout::{Strip, ENTRY, LIFE, MARKS};
use super::timeline::{Entry, Life, Mark, ThreadLane, Timeline};
use crate::words;

impl Drawing {
    /// A lane for each thread, over them one for the lines that are no call.
    pub fn threads(&mut self, timeline: &Timeline) {
        self.no_frames(&timeline.no_frames);
        let starters = self.starters(timeline);
        self.linked(&starters, |drawing| {
            for (&thread, lane) in &timeline.threads {
                drawing.thread(thread, lane);
            }
        });
    }

    /// Each life of a helper.
    fn starters(&self, timeline: &Timeline) -> Vec<Link> {
        let mut links = Vec::new();
        for (&thread, lane) in &timeline.threads {
            let lives = lane.lives.iter();
            links.extend(lives.filter_map(|life| self.starter(thread, life)));
        }
        links
    }

    /// From the starter's call to the near side of the helper's life.
    fn starter(&self, helper: u64, life: &Life) -> Option<Link> {
        let x = self.scale.middle(life.span.from);
        let call = marks_middle(self.lanes.threads[&life.starter?]);
        let life = self.lanes.threads[&helper].life();
        let near = if call < life.top {
            life.top
        } else {
            life.bottom()
        };
        Some(Link {
            end: (x, near),
            dot: (x, call),
            colour: colours::STARTER,
        })
    }

    fn no_frames(&mut self, marks: &[Mark]) {
        if let Some(strip) = self.lanes.no_frames {
            self.beside(strip.bottom() - 5, NAME, "no frame");
            self.marks(strip, marks);
        }
    }

    fn thread(&mut self, thread: u64, lane: &ThreadLane) {
        let strip = self.lanes.threads[&thread];
        self.beside(strip.bottom() - 3, NAME, &format!("thread {thread}"));
        for life in &lane.lives {
            self.life(strip, life);
        }
        for entry in &lane.entries {
            self.entry(strip, entry);
        }
        self.marks(strip, &lane.marks);
    }

    /// A thread's kind while it is started.
    fn life(&mut self, strip: Strip, life: &Life) {
        let bar = self.life_bar(strip, life.span);
        glyphs::life(&mut self.svg, bar);
        glyphs::label(&mut self.svg, bar, words::of_kind(life.kind));
    }

    /// The stack grows upwards.
    fn entry(&mut self, strip: Strip, entry: &Entry) {
        let top = strip.bottom() - LIFE - (entry.place + 1) * ENTRY;
        let bar = bar(self.scale.ends(entry.span), top + 1, ENTRY - 2);
        glyphs::area(&mut self.svg, bar, &self.palette.of_area(entry.area));
        glyphs::label(&mut self.svg, bar, &words::of_area(entry.area));
    }

    fn marks(&mut self, strip: Strip, marks: &[Mark]) {
        for mark in marks {
            let at = (self.scale.middle(mark.column), marks_middle(strip));
            match mark.status {
                0 => glyphs::accepted(&mut self.svg, at),
                status => glyphs::refused(&mut self.svg, at, status),
            }
        }
    }
}

/// The height at which a lane's calls are marked.
fn marks_middle(lane: Strip) -> usize {
    lane.top + MARKS / 2
}
