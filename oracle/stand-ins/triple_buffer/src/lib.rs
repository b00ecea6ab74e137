//! Stand-in for the crate `triple_buffer`: the reader sees the latest value
//! written, and `update` says whether there is one that it has not seen.

use std::sync::{Arc, Mutex};

pub fn triple_buffer<T: Clone>(initial: &T) -> (Input<T>, Output<T>) {
	let latest = Arc::new(Mutex::new(None));
	let output = Output {
		latest: latest.clone(),
		value: initial.clone(),
	};
	(Input { latest }, output)
}

#[derive(Debug)]
pub struct Input<T> {
	latest: Arc<Mutex<Option<T>>>,
}

impl<T> Input<T> {
	pub fn write(&mut self, value: T) {
		*self.latest.lock().expect("value lock poisoned") = Some(value);
	}
}

#[derive(Debug)]
pub struct Output<T> {
	latest: Arc<Mutex<Option<T>>>,
	value: T,
}

impl<T> Output<T> {
	pub fn update(&mut self) -> bool {
		match self.latest.lock().expect("value lock poisoned").take() {
			Some(value) => {
				self.value = value;
				true
			}
			None => false,
		}
	}

	pub fn output_buffer_mut(&mut self) -> &mut T {
		&mut self.value
	}
}
