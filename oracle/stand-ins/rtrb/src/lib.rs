//! Stand-in for the crate `rtrb`: a bounded queue between two owners.
//! A lock replaces the atomics, since one thread drives everything here.

use std::{
	collections::VecDeque,
	sync::{Arc, Mutex, MutexGuard},
};

pub struct RingBuffer;

impl RingBuffer {
	#[allow(clippy::new_ret_no_self)]
	pub fn new<T>(capacity: usize) -> (Producer<T>, Consumer<T>) {
		let queue = Arc::new(Mutex::new(VecDeque::with_capacity(capacity)));
		let producer = Producer {
			queue: queue.clone(),
			capacity,
		};
		(producer, Consumer { queue })
	}
}

#[derive(Debug)]
pub struct PushError<T>(pub T);

#[derive(Debug)]
pub struct PopError;

pub struct Producer<T> {
	queue: Arc<Mutex<VecDeque<T>>>,
	capacity: usize,
}

impl<T> Producer<T> {
	pub fn push(&mut self, item: T) -> Result<(), PushError<T>> {
		let mut queue = locked(&self.queue);
		if queue.len() == self.capacity {
			return Err(PushError(item));
		}
		queue.push_back(item);
		Ok(())
	}

	pub fn is_full(&self) -> bool {
		locked(&self.queue).len() == self.capacity
	}
}

pub struct Consumer<T> {
	queue: Arc<Mutex<VecDeque<T>>>,
}

impl<T> Consumer<T> {
	pub fn pop(&mut self) -> Result<T, PopError> {
		locked(&self.queue).pop_front().ok_or(PopError)
	}
}

fn locked<T>(queue: &Mutex<VecDeque<T>>) -> MutexGuard<'_, VecDeque<T>> {
	queue.lock().expect("queue lock poisoned")
}
