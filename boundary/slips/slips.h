/* The slips: for each a sentence, and the part of the program that must notice it. */
#ifndef BOUNDARY_SLIPS_H
#define BOUNDARY_SLIPS_H

/* One entry for each slip: its name, what it does, and the part that must notice. */
#define SLIPS(SLIP) \
    SLIP(RING_RUN, "kyrla_ring takes its run for one entry longer", ask_lists) \
    SLIP(EDGE_RUN, "kyrla_ring_edge takes its run for one entry longer", ask_lists) \
    SLIP(WEDGE_RUN, "kyrla_wedge takes its run for one entry longer", ask_lists) \
    SLIP(CORNER_RUN, "kyrla_corner_wedge takes its run for one entry longer", ask_lists) \
    SLIP(SPIRAL_RUN, "kyrla_spiral takes its run for one entry longer", ask_lists) \
    SLIP(TILE_RUN, "kyrla_tile takes its run for one entry longer", ask_pairs) \
    SLIP(ROW_COLUMN_RUN, "kyrla_row_column takes its run for one entry longer", ask_pairs) \
    SLIP(TILE_AT_RUN, "kyrla_tile_at takes its run for one entry longer", ask_pairs) \
    SLIP(TO_OFFSET_RUN, "kyrla_to_offset takes its run for one entry longer", ask_pairs) \
    SLIP(FROM_OFFSET_RUN, "kyrla_from_offset takes its run for one entry longer", ask_pairs) \
    SLIP(TO_DOUBLED_RUN, "kyrla_to_doubled takes its run for one entry longer", ask_pairs) \
    SLIP(FROM_DOUBLED_RUN, "kyrla_from_doubled takes its run for one entry longer", ask_pairs) \
    SLIP(RANGE_EFFORTS, "kyrla_range takes its efforts for one entry longer", ask_ranges) \
    SLIP(RANGE_TOTALS, "kyrla_range takes its totals for one entry longer", ask_ranges) \
    SLIP(CHECK_EFFORTS, "kyrla_check takes its efforts for one entry longer", ask_checks) \
    SLIP(CHECK_TOTALS, "kyrla_check takes its totals for one entry longer", ask_checks) \
    SLIP(CHECK_BROKEN, "kyrla_check takes the room for the index for one entry longer", ask_checks) \
    SLIP(ROUTE_EFFORTS, "kyrla_route takes its efforts for one entry longer", ask_routes) \
    SLIP(ROUTE_RANKS, "kyrla_route takes its ranks for one entry longer", ask_routes) \
    SLIP(ROUTE_RUN, "kyrla_route takes its run for one entry longer", ask_routes) \
    SLIP(RING_READS_PAST, "kyrla_ring reads the entry behind its run", ask_lists) \
    SLIP(RING_READS_BEFORE, "kyrla_ring reads the entry before its run", ask_lists) \
    SLIP(RING_WRITES_BEFORE, "kyrla_ring writes the entry before its run", ask_lists) \
    SLIP(TILE_WRITES_ON, "kyrla_tile writes a third entry where there is one", ask_pairs) \
    SLIP(TILE_READS_FAR, "kyrla_tile reads its run at the index 4294967295", ask_pairs) \
    SLIP(RANGE_READS_PAST, "kyrla_range reads the entry behind its efforts", ask_ranges) \
    SLIP(RANGE_WRITES_TABLE, "kyrla_range writes an effort, the same as it was", ask_ranges) \
    SLIP(RANGE_REFUSED_WRITES, "kyrla_range clears a total though it refuses", ask_ranges) \
    SLIP(CHECK_WRITES_TABLE, "kyrla_check writes a total, the same as it was", ask_checks) \
    SLIP(CHECK_ALWAYS_NOTES, "kyrla_check notes an index though the table is right", ask_checks) \
    SLIP(ROUTE_WRITES_TABLE, "kyrla_route writes an effort, the same as it was", ask_routes) \
    SLIP(ROUTE_7_WRITES, "kyrla_route refuses by 7 and writes to the run", ask_routes) \
    SLIP(ROUTE_8_CLEARS, "kyrla_route refuses by 8 and clears a rank", ask_routes) \
    SLIP(ROUTE_SHORT, "kyrla_route answers one tile fewer", ask_routes) \
    SLIP(DISTANCE_WRAPS, "kyrla_distance answers 32 bits", ask_numbers)

#define SLIP_NAME(name, text, part) name,
enum slip { NO_SLIP, SLIPS(SLIP_NAME) SLIPS_END };
#undef SLIP_NAME

/* The slip that is made. */
extern enum slip made;

#endif
