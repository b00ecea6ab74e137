//! Stand-in for the crate `glam`, as far as kira's text uses it.
//!
//! The length is the root of x² + y² + z², summed left to right; `f32::sqrt` is
//! the nearest number. A point that stands still stays exactly where it is under
//! `lerp`: a + (a - a) t is a, but for a = -0.0, which no coordinate is. All
//! listeners stand still, unrotated, and nothing is panned, so that directions
//! and rotations reach no sample.

use std::ops::{Add, Mul, Sub};

#[derive(Debug, Clone, Copy, PartialEq, Default)]
pub struct Vec3 {
	pub x: f32,
	pub y: f32,
	pub z: f32,
}

impl Vec3 {
	pub const ZERO: Self = Self::new(0.0, 0.0, 0.0);
	pub const X: Self = Self::new(1.0, 0.0, 0.0);
	pub const NEG_X: Self = Self::new(-1.0, 0.0, 0.0);

	pub const fn new(x: f32, y: f32, z: f32) -> Self {
		Self { x, y, z }
	}

	pub fn dot(self, other: Self) -> f32 {
		self.x * other.x + self.y * other.y + self.z * other.z
	}

	pub fn length(self) -> f32 {
		self.dot(self).sqrt()
	}

	pub fn distance(self, other: Self) -> f32 {
		(self - other).length()
	}

	pub fn normalize_or_zero(self) -> Self {
		let length = self.length();
		if length > 0.0 {
			self * (1.0 / length)
		} else {
			Self::ZERO
		}
	}

	pub fn lerp(self, other: Self, amount: f32) -> Self {
		self + (other - self) * amount
	}

	fn cross(self, other: Self) -> Self {
		Self::new(
			self.y * other.z - self.z * other.y,
			self.z * other.x - self.x * other.z,
			self.x * other.y - self.y * other.x,
		)
	}
}

impl Add for Vec3 {
	type Output = Self;

	fn add(self, other: Self) -> Self {
		Self::new(self.x + other.x, self.y + other.y, self.z + other.z)
	}
}

impl Sub for Vec3 {
	type Output = Self;

	fn sub(self, other: Self) -> Self {
		Self::new(self.x - other.x, self.y - other.y, self.z - other.z)
	}
}

impl Mul<f32> for Vec3 {
	type Output = Self;

	fn mul(self, factor: f32) -> Self {
		Self::new(self.x * factor, self.y * factor, self.z * factor)
	}
}

impl From<mint::Vector3<f32>> for Vec3 {
	fn from(v: mint::Vector3<f32>) -> Self {
		Self::new(v.x, v.y, v.z)
	}
}

impl From<Vec3> for mint::Vector3<f32> {
	fn from(v: Vec3) -> Self {
		Self {
			x: v.x,
			y: v.y,
			z: v.z,
		}
	}
}

/// A rotation: vector part and scalar part.
#[derive(Debug, Clone, Copy, PartialEq)]
pub struct Quat {
	v: Vec3,
	s: f32,
}

impl Quat {
	pub const IDENTITY: Self = Self {
		v: Vec3::ZERO,
		s: 1.0,
	};

	pub fn from_rotation_y(angle: f32) -> Self {
		let (sin, cos) = (angle * 0.5).sin_cos();
		Self {
			v: Vec3::new(0.0, sin, 0.0),
			s: cos,
		}
	}

	pub fn lerp(self, other: Self, amount: f32) -> Self {
		Self {
			v: self.v.lerp(other.v, amount),
			s: self.s + (other.s - self.s) * amount,
		}
	}

	/// Straight rather than along the sphere: no orientation moves in our scenes.
	pub fn slerp(self, other: Self, amount: f32) -> Self {
		self.lerp(other, amount)
	}
}

impl Mul<Vec3> for Quat {
	type Output = Vec3;

	fn mul(self, v: Vec3) -> Vec3 {
		let t = self.v.cross(v) * 2.0;
		v + t * self.s + self.v.cross(t)
	}
}

impl From<mint::Quaternion<f32>> for Quat {
	fn from(q: mint::Quaternion<f32>) -> Self {
		Self {
			v: q.v.into(),
			s: q.s,
		}
	}
}

impl From<Quat> for mint::Quaternion<f32> {
	fn from(q: Quat) -> Self {
		Self {
			v: q.v.into(),
			s: q.s,
		}
	}
}
