// A block of the benchmarks behind the door: its graph, its rows and the tables that its timings fill.
#ifndef LENT_H
#define LENT_H

#include "blocks.h"
#include "ripotyngue.h"

extern ripotyngue_graph lent_graph;
extern ripotyngue_delay lent_rows[RIPOTYNGUE_ARCS];
extern ripotyngue_line lent_lines[RIPOTYNGUE_MOST_LINES];
extern ripotyngue_node lent_nodes[RIPOTYNGUE_NODES];
extern ripotyngue_ticks lent_arrivals[RIPOTYNGUE_MOST_LINES], lent_required[RIPOTYNGUE_MOST_LINES];
extern ripotyngue_ticks lent_slacks[RIPOTYNGUE_NODES];

// Makes the block by the door's calls; false where a set came out otherwise than in plain C.
bool lend_block(const Block *block);

// The whole timing through the door into so many lines: how many it needs, or -1 where it is refused.
int time_lent(int line_count);

#endif
