/* feed SIZE < file | program: hands the file on SIZE bytes at a time. Each part is written only after the reader has
 * taken the one before, so that the program's reads get no more than SIZE bytes each. */
#include <poll.h>
#include <sched.h>
#include <stdlib.h>
#include <sys/ioctl.h>
#include <unistd.h>

int main(int argc, char **argv)
{
    static char part[1 << 20];
    size_t size = argc == 2 ? strtoul(argv[1], NULL, 10) : 0;
    ssize_t n;

    if (size < 1 || size > sizeof part)
        return 2;
    while ((n = read(STDIN_FILENO, part, size)) > 0) {
        int left = 0;
        for (ssize_t at = 0; at < n;) {
            ssize_t m = write(STDOUT_FILENO, part + at, (size_t)(n - at));
            if (m <= 0)
                return 1;
            at += m;
        }
        while (ioctl(STDOUT_FILENO, FIONREAD, &left) == 0 && left > 0) {
            struct pollfd end = {.fd = STDOUT_FILENO, .events = 0};
            if (poll(&end, 1, 0) > 0 && (end.revents & POLLERR))
                return 1; /* nobody reads any more */
            sched_yield();
        }
    }
    return n < 0;
}
