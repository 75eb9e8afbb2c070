/* odd WAY TEXT PROGRAM [WORD..]: runs a program on a standard input that gives the text and then does something odd:
 *   reset      the next read fails (ECONNRESET)
 *   stopped    the program is stopped and continued, first in a read and then in a write, and both calls fail with EINTR;
 *              the text goes on with 20,000 empty lines
 *   terminal   is a terminal, with the text typed and then ^D
 * The program's output and errors go where this one's go. Ends with the program's status, or 77 where there is no terminal. */
#define _GNU_SOURCE
#include <fcntl.h>
#include <signal.h>
#include <stdlib.h>
#include <string.h>
#include <sys/socket.h>
#include <sys/time.h>
#include <sys/wait.h>
#include <unistd.h>

static void must(int good)
{
    if (!good)
        _exit(99);
}

static void pause_ms(int ms) { usleep((useconds_t)ms * 1000); }

/* Runs the program in a process group of its own, with these for its input and output. */
static pid_t start(char **words, int in, int out)
{
    pid_t child = fork();
    must(child >= 0);
    if (child == 0) {
        must(setpgid(0, 0) == 0 && dup2(in, 0) == 0 && dup2(out, 1) == 1);
        for (int fd = 3; fd < 32; fd++)
            close(fd);
        execv(words[0], words);
        _exit(98);
    }
    setpgid(child, child);
    close(in);
    return child;
}

static int ended(pid_t child)
{
    int status;
    must(waitpid(child, &status, 0) == child);
    return WIFEXITED(status) ? WEXITSTATUS(status) : 128 + WTERMSIG(status);
}

/* A socket that was closed with bytes unread resets its peer; the peer first reads what was sent. */
static int reset(const char *text, char **words)
{
    int pair[2];
    must(socketpair(AF_UNIX, SOCK_STREAM, 0, pair) == 0);
    must(write(pair[1], text, strlen(text)) == (ssize_t)strlen(text) && write(pair[0], "x", 1) == 1);
    close(pair[1]);
    return ended(start(words, pair[0], 1));
}

/* A call on a socket with a time limit is not begun again after a stop: it fails with EINTR. */
static void stop(pid_t child)
{
    int status;
    for (int i = 0; i < 5; i++) {
        pause_ms(60);
        must(kill(-child, SIGSTOP) == 0 && waitpid(child, &status, WUNTRACED) == child && WIFSTOPPED(status));
        pause_ms(20);
        must(kill(-child, SIGCONT) == 0);
    }
    pause_ms(60);
}

static int stopped(const char *text, char **words)
{
    static char feeds[20000], part[4096];
    struct timeval limit = {.tv_sec = 600};
    int in[2], out[2], small = 4096;
    ssize_t n;

    must(socketpair(AF_UNIX, SOCK_STREAM, 0, in) == 0 && socketpair(AF_UNIX, SOCK_STREAM, 0, out) == 0);
    must(setsockopt(in[0], SOL_SOCKET, SO_RCVTIMEO, &limit, sizeof limit) == 0);
    must(setsockopt(out[0], SOL_SOCKET, SO_SNDTIMEO, &limit, sizeof limit) == 0);
    must(setsockopt(out[0], SOL_SOCKET, SO_SNDBUF, &small, sizeof small) == 0);
    pid_t child = start(words, in[0], out[0]);
    close(out[0]);
    must(write(in[1], text, strlen(text)) == (ssize_t)strlen(text));
    must((n = read(out[1], part, sizeof part)) > 0 && write(1, part, (size_t)n) == n);
    stop(child); /* it has answered, and reads */
    memset(feeds, '\n', sizeof feeds);
    must(write(in[1], feeds, sizeof feeds) == sizeof feeds);
    stop(child); /* it writes more than the socket takes */
    close(in[1]);
    while ((n = read(out[1], part, sizeof part)) > 0)
        must(write(1, part, (size_t)n) == n);
    return ended(child);
}

static int terminal(const char *text, char **words)
{
    int master = posix_openpt(O_RDWR | O_NOCTTY), slave;
    if (master < 0 || grantpt(master) != 0 || unlockpt(master) != 0 || (slave = open(ptsname(master), O_RDWR | O_NOCTTY)) < 0)
        return 77;
    pid_t child = start(words, slave, 1);
    must(write(master, text, strlen(text)) == (ssize_t)strlen(text) && write(master, "\004", 1) == 1);
    return ended(child);
}

int main(int argc, char **argv)
{
    if (argc > 3 && strcmp(argv[1], "reset") == 0)
        return reset(argv[2], argv + 3);
    if (argc > 3 && strcmp(argv[1], "stopped") == 0)
        return stopped(argv[2], argv + 3);
    if (argc > 3 && strcmp(argv[1], "terminal") == 0)
        return terminal(argv[2], argv + 3);
    return 2;
}
