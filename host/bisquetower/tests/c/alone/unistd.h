#include <stddef.h>
typedef long ssize_t;
ssize_t read(int file, void *to, size_t most);
ssize_t write(int file, const void *from, size_t length);
