// Reads a message from standard input and prints in a line what it has, or the refusal: number and value.
#include "print.h"
#include <bisquetower.h>

enum { MOST = BT_MESSAGE_SIZE, ANSWER = 14, HAVES = 7 * BT_HAVES, CHUNKS = 2 * BT_CHUNKS };

static uint8_t message[MOST + 1];
static uint64_t haves[HAVES], chunks[CHUNKS], ignored[BT_HAVES], answer[ANSWER];

int main(void) {
    size_t length = 0;
    for (ssize_t n; length <= MOST && (n = read(0, message + length, MOST + 1 - length)) > 0;) length += (size_t)n;
    bt_read_message(message, length, haves, HAVES, chunks, CHUNKS, ignored, answer);
    if (answer[0] != 0) return print_refusal(answer);
    print_number("version ", answer[1]);
    print_number(", heads ", answer[3]);
    print_number(", need ", answer[5]);
    print_number(", haves ", answer[7]);
    print_number(", chunks ", answer[9]);
    print_number(", flags ", answer[10]);
    print_number(", ignored ", answer[12]);
    print_number(" and ", answer[13]);
    print("\n");
    return 0;
}
