// Prints the version of the header, as text and as numbers, and how many of its limits are as bt_limits writes them.
#include "print.h"
#include <bisquetower.h>

static const uint64_t declared[] = {
    BT_HASH_SIZE,   BT_MESSAGE_SIZE, BT_ROWS,   BT_WAITING_ROWS, BT_DEPENDENCIES, BT_HASHES,
    BT_SENT_HASHES, BT_HAVES,        BT_CHUNKS, BT_FIELD_SIZE,   BT_PROBES,       BT_HASHES_TO_SEND,
};

enum { LIMITS = sizeof declared / sizeof *declared };

int main(void) {
    uint64_t limits[LIMITS], same = 0;
    bt_limits(limits);
    for (size_t k = 0; k < LIMITS; k++) same += limits[k] == declared[k];
    print("version " BT_VERSION);
    print_number(": ", BT_VERSION_MAJOR);
    print_number(" ", BT_VERSION_MINOR);
    print_number(" ", BT_VERSION_PATCH);
    print_number(", limits ", same);
    print("\n");
    return 0;
}
