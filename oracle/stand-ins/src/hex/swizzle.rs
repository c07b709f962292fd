// This file stands in for the exchanges of coordinates, which are not published; it is empty and holds none of the compared logic.
