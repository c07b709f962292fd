// This file stands in for the vector crate glam, which is not among the published files; it holds none of the compared logic.
// Every function here stops the program, so that no answer can rest on one of them.

use std::ops::{Add, Mul, Neg, Sub};

/// Ends the program, because a question has reached arithmetic that this file does not have.
const fn absent() -> ! {
    panic!("the stand-in for glam was asked to calculate")
}

/// Declares a vector type whose functions exist for the compiler only.
macro_rules! vector {
    ($name:ident, $number:ty, $($field:ident),+) => {
        #[derive(Debug, Clone, Copy, PartialEq)]
        pub struct $name { $(pub $field: $number),+ }
        impl $name {
            pub const ONE: Self = Self { $($field: 1 as $number),+ };
            pub fn abs(self) -> Self { absent() }
            pub fn max(self, _: Self) -> Self { absent() }
            pub fn min(self, _: Self) -> Self { absent() }
            pub fn clamp(self, _: Self, _: Self) -> Self { absent() }
            pub fn lerp(self, _: Self, _: f32) -> Self { absent() }
            pub fn max_element(self) -> $number { absent() }
            pub fn element_sum(self) -> $number { absent() }
            pub fn element_product(self) -> $number { absent() }
            pub fn as_ivec2(self) -> IVec2 { absent() }
            pub fn as_uvec2(self) -> UVec2 { absent() }
            pub const fn new($(_: vector!(@ $field $number)),+) -> Self { absent() }
            pub const fn to_array(self) -> [$number; 2] { absent() }
        }
        impl Neg for $name { type Output = Self; fn neg(self) -> Self { absent() } }
        impl Add for $name { type Output = Self; fn add(self, _: Self) -> Self { absent() } }
        impl Sub for $name { type Output = Self; fn sub(self, _: Self) -> Self { absent() } }
        impl Add<$number> for $name { type Output = Self; fn add(self, _: $number) -> Self { absent() } }
        impl Sub<$number> for $name { type Output = Self; fn sub(self, _: $number) -> Self { absent() } }
        impl Mul<$name> for $number { type Output = $name; fn mul(self, _: $name) -> $name { absent() } }
        impl From<[$number; 2]> for $name { fn from(_: [$number; 2]) -> Self { absent() } }
    };
    (@ $field:ident $number:ty) => { $number };
}

vector!(IVec2, i32, x, y);
vector!(IVec3, i32, x, y, z);
vector!(UVec2, u32, x, y);
vector!(Vec2, f32, x, y);

/// Named by the crate's list of exports and by nothing else.
pub struct Vec3;
pub struct Quat;
