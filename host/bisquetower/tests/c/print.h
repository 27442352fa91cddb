// What the programs here say, on standard output.
#include <stddef.h>
#include <stdint.h>
#include <unistd.h>

static inline void print(const char *text) {
    size_t length = 0;
    while (text[length] != 0) length++;
    (void)!write(1, text, length);
}

static inline void print_number(const char *name, uint64_t n) {
    char digits[21] = {0};
    size_t at = sizeof digits - 1;
    do digits[--at] = (char)('0' + n % 10);
    while ((n /= 10) != 0);
    print(name);
    print(digits + at);
}

// A refusal in a line: number and value. Returns the program's status.
static inline int print_refusal(const uint64_t *answer) {
    print_number("refusal ", answer[0]);
    print_number(", value ", answer[1]);
    print("\n");
    return 1;
}
