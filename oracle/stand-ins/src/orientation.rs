// This file stands in for the orientation, which is not published; it names the two cases and holds none of the compared logic.

#[derive(Debug, Clone, Copy, PartialEq, Eq)]
pub enum HexOrientation {
    Flat,
    Pointy,
}
