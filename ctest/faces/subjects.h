/* What is tried of the C face: one function for each file, by one way or, where there is no choice, by the way that there is. */
#ifndef SUBJECTS_H
#define SUBJECTS_H

#include "bench.h"

void try_settled(int way, const char *path);
void try_commands(int way);
void try_packets(int way);
void try_tables(int way);
void try_results_and_stores(int way);
void try_block_lengths(int way);
void try_sums(int way);
void try_md5(void);
void try_null(void);
void try_readings(void);
void try_places_and_values(void);

#endif
