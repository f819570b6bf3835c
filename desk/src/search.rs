//! A search of the tool's own beside the library's, for a person who waits: how many boxes it has done, and patterns of which length it tries. The library's
//! maker is one call and tells nothing on its way. This one goes the same way (document 01, "The defined table") at its own pace, so that it says about how
//! far the work is, and nothing but words comes of it.

use crate::files::{Form, Plant, Side, Sides};
use crate::images::image;
use std::sync::atomic::{AtomicBool, AtomicU64, Ordering::Relaxed};

pub struct Search<'a> {
    plant: &'a Plant,
    form: Form,
    s: Sides,
    /// Each box that gets a table, with the box that its patterns end in.
    roots: Vec<(Sides, Sides)>,
    done: AtomicU64,
    length: AtomicU64,
    stopped: AtomicBool,
}

impl<'a> Search<'a> {
    /// For tables of a form, of R and of each box of a chain around it.
    pub fn of(plant: &'a Plant, chain: &[Sides], form: Form) -> Search<'a> {
        let boxes = [&[plant.r()], chain].concat();
        let below = [&[plant.r()], &boxes[..chain.len()]].concat();
        let roots = boxes.into_iter().zip(below).collect();
        Search { plant, form, s: plant.s(), roots, done: AtomicU64::new(0), length: AtomicU64::new(1), stopped: AtomicBool::new(false) }
    }

    /// To the end, or until it is stopped: whether every box has a table.
    pub fn run(&self) -> bool {
        self.roots.iter().all(|(root, goal)| self.tree(root, goal, self.form.depth(self.plant)))
    }

    pub fn stop(&self) {
        self.stopped.store(true, Relaxed);
    }

    /// How many boxes have been tried to the end.
    pub fn done(&self) -> u64 {
        self.done.load(Relaxed)
    }

    pub fn words(&self) -> String {
        format!("own search: {} boxes done of up to {}, length {}", self.done(), self.most(), self.length.load(Relaxed))
    }

    /// The boxes of a full division.
    fn most(&self) -> u64 {
        let (children, depth) = (self.form.children(self.plant.rooms.len()), self.form.depth(self.plant));
        self.roots.len() as u64 * (0..=depth as u32).map(|depth| children.pow(depth)).sum::<u64>()
    }

    /// Whether a box with so much depth left has a table.
    fn tree(&self, here: &[Side], goal: &[Side], depth: u64) -> bool {
        let works = (1..=self.plant.longest).any(|length| {
            self.length.store(length, Relaxed);
            self.leads(here, goal, length)
        });
        self.done.fetch_add(1, Relaxed);
        let children = if works || depth == 0 { Vec::new() } else { self.form.split(here) };
        works || !children.is_empty() && children.iter().all(|child| self.tree(child, goal, depth - 1))
    }

    /// Whether some pattern of so many modes leads from a box into the goal, and never out of S.
    fn leads(&self, here: &[Side], goal: &[Side], length: u64) -> bool {
        (0..self.plant.modes.len() as u64).any(|mode| {
            let next = image(self.plant, mode, here);
            let goes_on = lies_in(&next, &self.s) && !self.stopped.load(Relaxed);
            goes_on && if length == 1 { lies_in(&next, goal) } else { self.leads(&next, goal, length - 1) }
        })
    }
}

fn lies_in(inner: &[Side], outer: &[Side]) -> bool {
    inner.iter().zip(outer).all(|(inner, outer)| outer.holds(*inner))
}
