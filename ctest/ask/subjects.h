/* What is tried of the asking side: one function for each subject, by one way or, where there is no choice, by the way that there is. */
#ifndef ASK_SUBJECTS_H
#define ASK_SUBJECTS_H

#include "gateway.h"

void try_settled_requests(int way, const char *path);
void try_requests(int way);
void try_unwritable(int way);
void try_board_a(int way);
void try_replies(int way);
void try_lists(int way);
void try_usable(int way);
void try_following(int way);
void try_no_bytes(int way);
void try_member_places(void);
void try_numbers(void);
void try_records(void);

#endif
