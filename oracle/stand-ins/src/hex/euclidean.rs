// This file stands in for the Euclidean norm, which is not published; it is empty and holds none of the compared logic.
