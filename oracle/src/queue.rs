//! The stand-in for the priority queue and its ordered float. Like the crate it
//! stands for it is an indexed binary heap: a hash map finds an item's slot, and
//! two plain lists join slots and heap places, so a sift hashes nothing.

use std::cmp::Ordering;
use std::collections::HashMap;
use std::hash::Hash;

/// A float in a total order: a NaN is above all others, zeros are equal.
#[derive(Clone, Copy, Debug)]
pub struct OrderedFloat<T>(pub T);

impl Ord for OrderedFloat<f32> {
    fn cmp(&self, other: &Self) -> Ordering {
        match self.0.partial_cmp(&other.0) {
            Some(order) => order,
            None => self.0.is_nan().cmp(&other.0.is_nan()),
        }
    }
}

impl PartialOrd for OrderedFloat<f32> {
    fn partial_cmp(&self, other: &Self) -> Option<Ordering> {
        Some(self.cmp(other))
    }
}

impl PartialEq for OrderedFloat<f32> {
    fn eq(&self, other: &Self) -> bool {
        self.cmp(other) == Ordering::Equal
    }
}

impl Eq for OrderedFloat<f32> {}

/// Gives the largest priority; on equality the least item.
pub struct PriorityQueue<I, P> {
    slots: Vec<(I, P)>,
    slot_of: HashMap<I, usize>,
    heap: Vec<usize>,
    place_of: Vec<usize>,
}

impl<I: Copy + Eq + Hash + Ord, P: Copy + Ord> PriorityQueue<I, P> {
    pub fn new() -> Self {
        PriorityQueue { slots: Vec::new(), slot_of: HashMap::new(), heap: Vec::new(), place_of: Vec::new() }
    }

    pub fn is_empty(&self) -> bool {
        self.heap.is_empty()
    }

    pub fn peek(&self) -> Option<(&I, &P)> {
        let slot = *self.heap.first()?;
        Some((&self.slots[slot].0, &self.slots[slot].1))
    }

    /// Adds the item, or changes its priority if it is there.
    pub fn push(&mut self, item: I, priority: P) -> Option<P> {
        let old = self.change_priority(&item, priority);
        if old.is_none() {
            let slot = self.slots.len();
            self.slots.push((item, priority));
            self.slot_of.insert(item, slot);
            self.place_of.push(slot);
            self.heap.push(slot);
            self.sift_up(slot);
        }
        old
    }

    pub fn change_priority(&mut self, item: &I, priority: P) -> Option<P> {
        let slot = *self.slot_of.get(item)?;
        let old = std::mem::replace(&mut self.slots[slot].1, priority);
        self.settle(self.place_of[slot]);
        Some(old)
    }

    pub fn remove(&mut self, item: &I) -> Option<(I, P)> {
        let slot = self.slot_of.remove(item)?;
        let place = self.place_of[slot];
        self.heap.swap_remove(place);
        if place < self.heap.len() {
            self.place_of[self.heap[place]] = place;
        }
        let removed = self.drop_slot(slot);
        if place < self.heap.len() {
            self.settle(place);
        }
        Some(removed)
    }

    /// The last slot moves into the dropped one.
    fn drop_slot(&mut self, slot: usize) -> (I, P) {
        let removed = self.slots.swap_remove(slot);
        self.place_of.swap_remove(slot);
        if slot < self.slots.len() {
            self.slot_of.insert(self.slots[slot].0, slot);
            self.heap[self.place_of[slot]] = slot;
        }
        removed
    }

    fn settle(&mut self, place: usize) {
        let place = self.sift_up(place);
        self.sift_down(place);
    }

    fn before(&self, left: usize, right: usize) -> bool {
        let (left, right) = (&self.slots[self.heap[left]], &self.slots[self.heap[right]]);
        left.1.cmp(&right.1).then(right.0.cmp(&left.0)) == Ordering::Greater
    }

    fn exchange(&mut self, left: usize, right: usize) {
        self.heap.swap(left, right);
        self.place_of[self.heap[left]] = left;
        self.place_of[self.heap[right]] = right;
    }

    fn sift_up(&mut self, mut place: usize) -> usize {
        while place > 0 && self.before(place, (place - 1) / 2) {
            self.exchange(place, (place - 1) / 2);
            place = (place - 1) / 2;
        }
        place
    }

    fn sift_down(&mut self, mut place: usize) {
        loop {
            let mut first = 2 * place + 1;
            if first >= self.heap.len() {
                return;
            }
            if first + 1 < self.heap.len() && self.before(first + 1, first) {
                first += 1;
            }
            if !self.before(first, place) {
                return;
            }
            self.exchange(first, place);
            place = first;
        }
    }
}
