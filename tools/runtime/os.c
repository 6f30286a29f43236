/* What the program asks of the machine beside POSIX's own functions and the heap: its arguments, and `errno`. For x86-64 the toolchain's archive has
 * these; for another processor they are these. */
#include <errno.h>
#include <stddef.h>
#include <stdint.h>

static int count;
static char **words;

/* glibc hands the arguments of `main` to what runs before it. */
__attribute__((constructor)) static void keep(int main_count, char **main_words) {
    count = main_count;
    words = main_words;
}

size_t rattle_arg_count(void) {
    return (size_t)count;
}

/* Puts an argument at the start of the room, without its final 0, and answers its length; -1 where there is none of this number, or -2 where it is longer than
 * the room, which it then fills. */
ptrdiff_t rattle_arg(size_t number, uint8_t *room, size_t size) {
    size_t length;
    if (number >= (size_t)count || !words[number])
        return -1;
    for (length = 0; words[number][length]; length++) {
        if (length == size)
            return -2;
        room[length] = (uint8_t)words[number][length];
    }
    return (ptrdiff_t)length;
}

int rattle_errno(void) {
    return errno;
}

void rattle_set_errno(int error) {
    errno = error;
}
