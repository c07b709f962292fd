// This file stands in for the conversions to and from the vectors of glam, which are not published; it holds none of the compared logic.

use super::Hex;
use glam::Vec2;

impl From<Vec2> for Hex {
    fn from(_: Vec2) -> Self {
        panic!("the stand-in for the vector conversions was asked to convert")
    }
}
