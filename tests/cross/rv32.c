/* Picolibc's write knows no standard output where a board has semihosting alone; examples/firmware.c writes by it. Here that is
 * what printf has. */
#include <stdio.h>
#include <unistd.h>

ssize_t write(int file, const void *bytes, size_t count) {
    (void)file;
    return (ssize_t)fwrite(bytes, 1, count, stdout);
}
