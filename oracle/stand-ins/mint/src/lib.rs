//! Stand-in for the crate `mint`: the two types that kira's text names.

#[derive(Debug, Clone, Copy, PartialEq)]
pub struct Vector3<T> {
	pub x: T,
	pub y: T,
	pub z: T,
}

#[derive(Debug, Clone, Copy, PartialEq)]
pub struct Quaternion<T> {
	pub v: Vector3<T>,
	pub s: T,
}
