// This file stands in for the list of the direction files and for their operators, which are not published; it holds none of the compared logic.
// Each operator only passes its operands on to a published function.

pub mod angles;
mod edge_direction;
mod vertex_direction;
mod way;

pub use edge_direction::EdgeDirection;
pub use vertex_direction::VertexDirection;
pub use way::DirectionWay;

use crate::Hex;
use std::ops::{Mul, Neg, Shl, Shr};

/// Gives one direction type the operators that the published files use on it.
macro_rules! operators {
    ($direction:ty) => {
        impl Neg for $direction { type Output = Self; fn neg(self) -> Self { self.const_neg() } }
        impl Shl<u8> for $direction { type Output = Self; fn shl(self, by: u8) -> Self { self.rotate_ccw(by) } }
        impl Shr<u8> for $direction { type Output = Self; fn shr(self, by: u8) -> Self { self.rotate_cw(by) } }
        impl Mul<i32> for $direction { type Output = Hex; fn mul(self, times: i32) -> Hex { self.into_hex() * times } }
    };
}

operators!(EdgeDirection);
operators!(VertexDirection);
