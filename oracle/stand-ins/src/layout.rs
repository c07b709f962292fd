// This file stands in for the layout on a screen, which is not published; it holds none of the compared logic.

use crate::HexOrientation;
use glam::Vec2;

pub struct HexLayout {
    pub orientation: HexOrientation,
}

impl HexLayout {
    pub fn transform_vector(&self, _: Vec2) -> Vec2 {
        panic!("the stand-in for the layout was asked to transform")
    }
}
