// The library's calls in the person's terms: each crosses the door and comes back.
#ifndef CROSS_H
#define CROSS_H

#include "person.h"
#include "ripotyngue.h"

enum { MEASURES = 4 };

measure measure_of(int which);

answer cross_call(ripotyngue_graph *graph, const call *made);
answer cross_load(ripotyngue_graph *graph, file_kind kind, const uint8_t *bytes, size_t length);
answer cross_open(ripotyngue_graph *graph, int32_t number, int32_t ticks);
answer cross_end(ripotyngue_graph *graph);
answer cross_taken(const ripotyngue_graph *graph);
answer cross_arc(const ripotyngue_graph *graph, int32_t number, arc *found);
answer cross_start_of(const ripotyngue_graph *graph, int32_t node);
answer cross_end_of(const ripotyngue_graph *graph, int32_t node);

answer cross_load_delays(const uint8_t *bytes, size_t length, delay *rows, size_t row_count);

answer cross_time(int which, const ripotyngue_graph *graph, const delays *source, tables *sheet);
answer cross_trace(int which, int32_t node, const tables *sheet, uint16_t *list, size_t list_count);

#endif
