// Reads a change table from standard input, builds its index and prints in a line how many rows and heads it has, or the
// refusal: number and value.
#include "print.h"
#include <bisquetower.h>

enum { ROW = BT_HASH_SIZE + 2 * (1 + BT_DEPENDENCIES), ENTRY = 2, MOST = ROW * BT_ROWS };

static uint8_t table[MOST + 1], table_index[ENTRY * BT_ROWS], heads[BT_HASH_SIZE * BT_ROWS];
static uint64_t answer[4];

int main(void) {
    size_t length = 0;
    for (ssize_t n; length <= MOST && (n = read(0, table + length, MOST + 1 - length)) > 0;) length += (size_t)n;
    bt_build_index(table, length, table_index, sizeof table_index, answer);
    if (answer[0] != 0) return print_refusal(answer);
    size_t rows = length / ROW;
    bt_heads(table, length, table_index, (size_t)answer[1], rows, heads, sizeof heads, answer);
    if (answer[0] != 0) return print_refusal(answer);
    print_number("rows ", rows);
    print_number(", heads ", answer[1] / BT_HASH_SIZE);
    print("\n");
    return 0;
}
