/* ask EXAMPLES: the C face of the asking side, tried on board A and on tables and replies made by hand: each call once by the library's
 * functions and once by the inline ones. EXAMPLES is the file of settled examples. C11 and also C++11. */
#include "ask/subjects.h"

unsigned checks, failed;

int main(int count, char **arguments)
{
    if (count != 2) {
        fputs("usage: ask EXAMPLES\n", stderr);
        return 2;
    }
    for (int way = RAW; way < WAYS; way++) {
        try_settled_requests(way, arguments[1]);
        try_requests(way);
        try_unwritable(way);
        try_board_a(way);
        try_replies(way);
        try_lists(way);
        try_usable(way);
        try_following(way);
        try_no_bytes(way);
    }
    try_member_places();
    try_numbers();
    try_records();
    printf("%u checks, %u failed\n", checks, failed);
    return failed != 0;
}
