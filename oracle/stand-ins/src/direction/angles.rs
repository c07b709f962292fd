// This file stands in for the table of angles, which is not published; it holds none of the compared logic.
// No question concerns an angle, so each constant is no number at all.

pub const DIRECTION_ANGLE_RAD: f32 = f32::NAN;
pub const DIRECTION_ANGLE_OFFSET_RAD: f32 = f32::NAN;
pub const DIRECTION_ANGLE_DEGREES: f32 = f32::NAN;
pub const DIRECTION_ANGLE_OFFSET_DEGREES: f32 = f32::NAN;
