//! A stand-in for `i_tree`: what the segment layer of i_overlay calls, and no more.
//!
//! Two families. `key`: ordered collections for the sweep, an entry is live while
//! `expiration > time`. `seg`: a segment tree over y ranges for the split, an entry
//! is live while `expiration >= time` (segments that only touch must still meet).

pub trait Expiration: Copy + Ord {}

pub trait LayoutNumber: Copy + Ord {
    /// `self - min` as a whole number. Condition: `self >= min`.
    fn offset_from(self, min: Self) -> u64;
}

macro_rules! numbers {
    ($($int:ty),*) => {$(
        impl Expiration for $int {}
        impl LayoutNumber for $int {
            #[inline(always)]
            fn offset_from(self, min: Self) -> u64 {
                (self as i64).wrapping_sub(min as i64) as u64
            }
        }
    )*};
}
numbers!(i16, i32, i64);

pub trait ExpiredKey<E>: Copy + Ord {
    fn expiration(&self) -> E;
}

pub trait ExpiredVal<E>: Copy {
    fn expiration(&self) -> E;
}

pub mod key {
    pub mod exp {
        use crate::{Expiration, ExpiredKey};
        use std::cmp::Ordering;

        pub trait KeyExpCollection<K: ExpiredKey<E>, E: Expiration, V: Copy> {
            fn insert(&mut self, key: K, val: V, time: E);
            /// The value of the last live entry for which `order` is not `Greater`.
            fn first_less_or_equal_by<F>(&mut self, time: E, default: V, order: F) -> V
            where
                F: Fn(K) -> Ordering;
            fn clear(&mut self);
        }
    }

    pub mod list {
        use super::exp::KeyExpCollection;
        use crate::{Expiration, ExpiredKey};
        use std::cmp::Ordering;

        /// A sorted vector; expired entries are dropped as soon as there is one.
        pub struct KeyExpList<K, E, V> {
            entries: Vec<(K, V)>,
            next_expiration: Option<E>,
        }

        impl<K: ExpiredKey<E>, E: Expiration, V: Copy> KeyExpList<K, E, V> {
            pub fn new(capacity: usize) -> Self {
                Self { entries: Vec::with_capacity(capacity), next_expiration: None }
            }
            pub fn reserve_capacity(&mut self, capacity: usize) {
                self.entries.reserve(capacity.saturating_sub(self.entries.len()));
            }
            #[inline]
            fn drop_expired(&mut self, time: E) {
                if !self.next_expiration.is_some_and(|next| next <= time) {
                    return;
                }
                let mut next: Option<E> = None;
                self.entries.retain(|(key, _)| {
                    let end = key.expiration();
                    let live = end > time;
                    if live {
                        next = Some(next.map_or(end, |n| n.min(end)));
                    }
                    live
                });
                self.next_expiration = next;
            }
        }

        impl<K: ExpiredKey<E>, E: Expiration, V: Copy> KeyExpCollection<K, E, V> for KeyExpList<K, E, V> {
            fn insert(&mut self, key: K, val: V, time: E) {
                self.drop_expired(time);
                let end = key.expiration();
                self.next_expiration = Some(self.next_expiration.map_or(end, |n| n.min(end)));
                let place = self.entries.partition_point(|(k, _)| k.cmp(&key) != Ordering::Greater);
                self.entries.insert(place, (key, val));
            }
            fn first_less_or_equal_by<F>(&mut self, time: E, default: V, order: F) -> V
            where
                F: Fn(K) -> Ordering,
            {
                self.drop_expired(time);
                let place = self.entries.partition_point(|(k, _)| order(*k) != Ordering::Greater);
                if place == 0 {
                    default
                } else {
                    self.entries[place - 1].1
                }
            }
            fn clear(&mut self) {
                self.entries.clear();
                self.next_expiration = None;
            }
        }
    }

    pub mod tree {
        use super::exp::KeyExpCollection;
        use crate::{Expiration, ExpiredKey};
        use std::cmp::Ordering;

        const NIL: u32 = u32::MAX;

        struct Node<K, V> {
            key: K,
            val: V,
            priority: u32,
            left: u32,
            right: u32,
        }

        #[derive(Clone, Copy)]
        enum Slot {
            Root,
            Left(u32),
            Right(u32),
        }

        /// A treap. Expired nodes are taken out when a descent meets them, before
        /// their keys are compared.
        pub struct KeyExpTree<K, E, V> {
            nodes: Vec<Node<K, V>>,
            free: Vec<u32>,
            root: u32,
            random: u32,
            engine: std::marker::PhantomData<E>,
        }

        impl<K: ExpiredKey<E>, E: Expiration, V: Copy> KeyExpTree<K, E, V> {
            pub fn new(capacity: usize) -> Self {
                Self {
                    nodes: Vec::with_capacity(capacity),
                    free: Vec::new(),
                    root: NIL,
                    random: 0x9E37_79B9,
                    engine: std::marker::PhantomData,
                }
            }
            pub fn reserve_capacity(&mut self, capacity: usize) {
                self.nodes.reserve(capacity.saturating_sub(self.nodes.len()));
            }
            #[inline]
            fn node(&self, index: u32) -> &Node<K, V> {
                &self.nodes[index as usize]
            }
            #[inline]
            fn set(&mut self, slot: Slot, index: u32) {
                match slot {
                    Slot::Root => self.root = index,
                    Slot::Left(parent) => self.nodes[parent as usize].left = index,
                    Slot::Right(parent) => self.nodes[parent as usize].right = index,
                }
            }
            fn merge(&mut self, left: u32, right: u32) -> u32 {
                if left == NIL {
                    return right;
                }
                if right == NIL {
                    return left;
                }
                if self.node(left).priority >= self.node(right).priority {
                    let joined = self.merge(self.node(left).right, right);
                    self.nodes[left as usize].right = joined;
                    left
                } else {
                    let joined = self.merge(left, self.node(right).left);
                    self.nodes[right as usize].left = joined;
                    right
                }
            }
            /// The live root of a subtree, after taking out expired roots.
            #[inline]
            fn live_root(&mut self, mut index: u32, time: E) -> u32 {
                while index != NIL && self.node(index).key.expiration() <= time {
                    let (left, right) = (self.node(index).left, self.node(index).right);
                    self.free.push(index);
                    index = self.merge(left, right);
                }
                index
            }
            /// The next of a fixed row of random numbers.
            #[inline]
            fn next_priority(&mut self) -> u32 {
                self.random ^= self.random << 13;
                self.random ^= self.random >> 17;
                self.random ^= self.random << 5;
                self.random
            }
            /// Where a key of this priority goes, and the subtree that it takes the place of.
            #[inline]
            fn place(&mut self, key: &K, priority: u32, time: E) -> (Slot, u32) {
                let mut slot = Slot::Root;
                let mut index = self.root;
                loop {
                    let live = self.live_root(index, time);
                    if live != index {
                        self.set(slot, live);
                        index = live;
                    }
                    if index == NIL || self.node(index).priority < priority {
                        break;
                    }
                    if key.cmp(&self.node(index).key) == Ordering::Less {
                        slot = Slot::Left(index);
                        index = self.node(index).left;
                    } else {
                        slot = Slot::Right(index);
                        index = self.node(index).right;
                    }
                }
                (slot, index)
            }
            fn split(&mut self, index: u32, key: &K, time: E) -> (u32, u32) {
                let index = self.live_root(index, time);
                if index == NIL {
                    return (NIL, NIL);
                }
                if key.cmp(&self.node(index).key) == Ordering::Less {
                    let (left, right) = self.split(self.node(index).left, key, time);
                    self.nodes[index as usize].left = right;
                    (left, index)
                } else {
                    let (left, right) = self.split(self.node(index).right, key, time);
                    self.nodes[index as usize].right = left;
                    (index, right)
                }
            }
        }

        impl<K: ExpiredKey<E>, E: Expiration, V: Copy> KeyExpCollection<K, E, V> for KeyExpTree<K, E, V> {
            fn insert(&mut self, key: K, val: V, time: E) {
                let priority = self.next_priority();
                let (slot, index) = self.place(&key, priority, time);
                let (left, right) = self.split(index, &key, time);
                let node = Node { key, val, priority, left, right };
                let place = if let Some(place) = self.free.pop() {
                    self.nodes[place as usize] = node;
                    place
                } else {
                    self.nodes.push(node);
                    (self.nodes.len() - 1) as u32
                };
                self.set(slot, place);
            }
            fn first_less_or_equal_by<F>(&mut self, time: E, default: V, order: F) -> V
            where
                F: Fn(K) -> Ordering,
            {
                let mut best = default;
                let mut slot = Slot::Root;
                let mut index = self.root;
                loop {
                    let live = self.live_root(index, time);
                    if live != index {
                        self.set(slot, live);
                        index = live;
                    }
                    if index == NIL {
                        return best;
                    }
                    if order(self.node(index).key) == Ordering::Greater {
                        slot = Slot::Left(index);
                        index = self.node(index).left;
                    } else {
                        best = self.node(index).val;
                        slot = Slot::Right(index);
                        index = self.node(index).right;
                    }
                }
            }
            fn clear(&mut self) {
                self.nodes.clear();
                self.free.clear();
                self.root = NIL;
            }
        }
    }
}

pub mod seg {
    pub mod exp {
        use crate::{Expiration, ExpiredVal, LayoutNumber};

        #[derive(Debug, Clone, Copy)]
        pub struct SegRange<R> {
            pub min: R,
            pub max: R,
        }

        pub trait SegExpCollection<R: LayoutNumber, E: Expiration, V: ExpiredVal<E>> {
            fn insert_by_range(&mut self, range: SegRange<R>, val: V);
            /// Every live value whose range meets this one, once. It may also give
            /// live values whose range only comes near (the same leaf).
            fn iter_by_range(&mut self, range: SegRange<R>, time: E) -> impl Iterator<Item = V>;
            fn clear(&mut self);
        }
    }

    pub mod tree {
        use super::exp::{SegExpCollection, SegRange};
        use crate::{Expiration, ExpiredVal, LayoutNumber};

        const MAX_LEAF_BITS: u32 = 10;

        /// A segment tree as a heap: node 1 is the root, leaf `i` is node `leaves + i`.
        /// An entry keeps the first leaf of its range, so that exactly one of its
        /// nodes reports it.
        pub struct SegExpTree<R, E, V> {
            min: R,
            max: R,
            shift: u32,
            leaf_bits: u32,
            nodes: Vec<Vec<(u32, V)>>,
            found: Vec<V>,
            engine: std::marker::PhantomData<E>,
        }

        impl<R: LayoutNumber, E: Expiration, V: ExpiredVal<E>> SegExpTree<R, E, V> {
            /// None where the range is shorter than four; upstream's own border may be another.
            pub fn new(range: SegRange<R>) -> Option<Self> {
                let length = range.max.offset_from(range.min);
                if length < 4 {
                    return None;
                }
                let bits = u64::BITS - length.leading_zeros();
                let leaf_bits = bits.min(MAX_LEAF_BITS);
                Some(Self {
                    min: range.min,
                    max: range.max,
                    shift: bits - leaf_bits,
                    leaf_bits,
                    nodes: (0..2_usize << leaf_bits).map(|_| Vec::new()).collect(),
                    found: Vec::new(),
                    engine: std::marker::PhantomData,
                })
            }
            #[inline]
            fn leaf(&self, value: R) -> usize {
                let value = value.max(self.min).min(self.max);
                (value.offset_from(self.min) >> self.shift) as usize
            }
        }

        impl<R: LayoutNumber, E: Expiration, V: ExpiredVal<E>> SegExpCollection<R, E, V> for SegExpTree<R, E, V> {
            fn insert_by_range(&mut self, range: SegRange<R>, val: V) {
                let leaves = 1_usize << self.leaf_bits;
                let first = self.leaf(range.min);
                let entry = (first as u32, val);
                let mut low = first + leaves;
                let mut high = self.leaf(range.max) + leaves + 1;
                while low < high {
                    if low & 1 == 1 {
                        self.nodes[low].push(entry);
                        low += 1;
                    }
                    if high & 1 == 1 {
                        high -= 1;
                        self.nodes[high].push(entry);
                    }
                    low >>= 1;
                    high >>= 1;
                }
            }
            fn iter_by_range(&mut self, range: SegRange<R>, time: E) -> impl Iterator<Item = V> {
                let leaves = 1_usize << self.leaf_bits;
                let first = self.leaf(range.min);
                let last = self.leaf(range.max);
                self.found.clear();
                for level in 0..=self.leaf_bits {
                    for index in (first + leaves) >> level..=(last + leaves) >> level {
                        let node = &mut self.nodes[index];
                        let mut i = 0;
                        while i < node.len() {
                            let (start, val) = node[i];
                            if val.expiration() < time {
                                node.swap_remove(i);
                                continue;
                            }
                            if (first.max(start as usize) + leaves) >> level == index {
                                self.found.push(val);
                            }
                            i += 1;
                        }
                    }
                }
                self.found.iter().copied()
            }
            fn clear(&mut self) {
                for node in self.nodes.iter_mut() {
                    node.clear();
                }
            }
        }
    }
}
