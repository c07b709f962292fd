// This file stands in for the list of the algorithms' files, which is not published; it holds none of the compared logic.

mod field_of_movement;
mod fov;
mod pathfinding;

pub use field_of_movement::field_of_movement;
pub use fov::{directional_fov, range_fov};
pub use pathfinding::a_star;
