//! Stand-in for the crate `atomic_arena`, as far as kira's text uses it.
//!
//! Iteration is newest first, which is our choice. Keys are given
//! out in turn and never reused, since nothing is removed in our scenes.

use std::{
	ops::{Index, IndexMut},
	sync::{
		Arc,
		atomic::{AtomicUsize, Ordering},
	},
};

#[derive(Debug, Clone, Copy, PartialEq, Eq, Hash)]
pub struct Key(usize);

#[derive(Debug)]
pub struct ArenaFull;

#[derive(Debug)]
pub struct InsertWithKeyError;

/// Reserves keys for an arena that another thread may own.
#[derive(Debug, Clone)]
pub struct Controller {
	reserved: Arc<AtomicUsize>,
	capacity: usize,
}

impl Controller {
	pub fn try_reserve(&self) -> Result<Key, ArenaFull> {
		self.reserved
			.fetch_update(Ordering::SeqCst, Ordering::SeqCst, |count| {
				(count < self.capacity).then_some(count + 1)
			})
			.map(Key)
			.map_err(|_| ArenaFull)
	}

	pub fn capacity(&self) -> usize {
		self.capacity
	}

	pub fn len(&self) -> usize {
		self.reserved.load(Ordering::SeqCst)
	}

	pub fn is_empty(&self) -> bool {
		self.len() == 0
	}
}

/// Items stand oldest first in `items`; the iterators run backwards.
pub struct Arena<T> {
	items: Vec<(Key, T)>,
	controller: Controller,
}

impl<T> Arena<T> {
	pub fn new(capacity: usize) -> Self {
		Self {
			items: Vec::with_capacity(capacity),
			controller: Controller {
				reserved: Arc::new(AtomicUsize::new(0)),
				capacity,
			},
		}
	}

	pub fn controller(&self) -> Controller {
		self.controller.clone()
	}

	pub fn is_empty(&self) -> bool {
		self.items.is_empty()
	}

	pub fn insert_with_key(&mut self, key: Key, item: T) -> Result<(), InsertWithKeyError> {
		if self.place(key).is_some() {
			return Err(InsertWithKeyError);
		}
		self.items.push((key, item));
		Ok(())
	}

	pub fn get(&self, key: Key) -> Option<&T> {
		self.place(key).map(|place| &self.items[place].1)
	}

	pub fn get_mut(&mut self, key: Key) -> Option<&mut T> {
		self.place(key).map(|place| &mut self.items[place].1)
	}

	pub fn remove(&mut self, key: Key) -> Option<T> {
		self.place(key).map(|place| self.items.remove(place).1)
	}

	pub fn drain_filter(&mut self, mut test: impl FnMut(&T) -> bool) -> Vec<(Key, T)> {
		self.items.extract_if(.., |(_, item)| test(item)).collect()
	}

	pub fn iter(&self) -> iter::Iter<'_, T> {
		iter::Iter(self.items.iter())
	}

	pub fn iter_mut(&mut self) -> iter::IterMut<'_, T> {
		iter::IterMut(self.items.iter_mut())
	}

	/// Nothing is removed in our scenes, so the first guess is right there.
	fn place(&self, key: Key) -> Option<usize> {
		match self.items.get(key.0) {
			Some((found, _)) if *found == key => Some(key.0),
			_ => self.items.iter().position(|(found, _)| *found == key),
		}
	}
}

impl<T> Index<Key> for Arena<T> {
	type Output = T;

	fn index(&self, key: Key) -> &T {
		self.get(key).expect("no item with this key")
	}
}

impl<T> IndexMut<Key> for Arena<T> {
	fn index_mut(&mut self, key: Key) -> &mut T {
		self.get_mut(key).expect("no item with this key")
	}
}

pub mod iter {
	use crate::Key;

	pub struct Iter<'a, T>(pub(crate) std::slice::Iter<'a, (Key, T)>);

	impl<'a, T> Iterator for Iter<'a, T> {
		type Item = (Key, &'a T);

		fn next(&mut self) -> Option<Self::Item> {
			self.0.next_back().map(|(key, item)| (*key, item))
		}
	}

	pub struct IterMut<'a, T>(pub(crate) std::slice::IterMut<'a, (Key, T)>);

	impl<'a, T> Iterator for IterMut<'a, T> {
		type Item = (Key, &'a mut T);

		fn next(&mut self) -> Option<Self::Item> {
			self.0.next_back().map(|(key, item)| (*key, item))
		}
	}
}
