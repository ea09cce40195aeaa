/* Reads and writes that go wrong, for tests/faults: an object that is loaded in front of the C library. FAULT says what happens:
 *   short        each read and each write moves one byte
 *   write N E    after N bytes written, writes to standard output fail with errno E; the last one before is cut short at N
 *   read N E     after N bytes read, reads of standard input fail with errno E; the last one before is cut short at N
 *   signal       SIGUSR1 is caught, and interrupts a call that waits
 *   busy         every second call, the first among them, is interrupted before it moves a byte
 */
#define _GNU_SOURCE
#include <errno.h>
#include <signal.h>
#include <stdio.h>
#include <stdlib.h>
#include <string.h>
#include <unistd.h>

/* of Linux on x86-64, for which the object is made, whichever machine's headers are at hand */
enum { CALL_READ = 0, CALL_WRITE = 1 };

enum { NONE, SHORT, WRITE, READ, SIGNAL, BUSY };

static int kind = NONE, number, calls;
static size_t left;

static void caught(int signal) { (void)signal; }

__attribute__((constructor)) static void begin(void) {
    const char *said = getenv("FAULT");
    long bytes = 0;
    if (said == NULL) return;
    if (strcmp(said, "short") == 0) kind = SHORT;
    else if (strcmp(said, "busy") == 0) kind = BUSY;
    else if (strcmp(said, "signal") == 0) {
        struct sigaction how;
        memset(&how, 0, sizeof how);
        how.sa_handler = caught;
        sigaction(SIGUSR1, &how, NULL);
        kind = SIGNAL;
    } else if (sscanf(said, "write %ld %d", &bytes, &number) == 2) kind = WRITE;
    else if (sscanf(said, "read %ld %d", &bytes, &number) == 2) kind = READ;
    else abort();
    left = (size_t)bytes;
}

static ssize_t moved(long call, int of, int fd, void *bytes, size_t n) {
    ssize_t done;
    if (fd == 2) return syscall(call, fd, bytes, n);
    if (kind == BUSY && calls++ % 2 == 0) {
        errno = EINTR;
        return -1;
    }
    if (kind == SHORT && n > 1) n = 1;
    if (kind == of) {
        if (left == 0) {
            errno = number;
            return -1;
        }
        if (n > left) n = left;
    }
    done = syscall(call, fd, bytes, n);
    if (kind == of && done > 0) left -= (size_t)done;
    return done;
}

ssize_t read(int fd, void *bytes, size_t n) { return moved(CALL_READ, READ, fd, bytes, n); }

ssize_t write(int fd, const void *bytes, size_t n) { return moved(CALL_WRITE, WRITE, fd, (void *)bytes, n); }
