// Preloaded into the program by bench/faults.sh, for tests only: reads of standard input and writes to standard output that fail or fall
// short. FAULT_READ and FAULT_WRITE each say how, in five words, `UNIT AT TIMES ERROR MOST`:
//     UNIT   call: the fault comes at call number AT, counted from 0; byte: once AT bytes have been moved, and the call before it ends there
//     TIMES  so many calls in turn fail, -1 for all of them, and move no byte; 0 for none
//     ERROR  errno of a call that fails; 0: it moves no byte and says so
//     MOST   no call moves more bytes, 0 for no such limit
// A call that comes less than half a millisecond after one that was not ready, or moved no byte, fails with ENOTRECOVERABLE: it was to wait.
#define _GNU_SOURCE
#include <errno.h>
#include <stdio.h>
#include <stdlib.h>
#include <sys/syscall.h>
#include <time.h>
#include <unistd.h>

struct plan {
    int known, by_byte, error;
    long at, times, most;        // as asked
    long calls, moved, bad;      // so far: calls that were made, bytes that they moved, calls that failed
    struct timespec last;        // when one last did
};

static struct plan plans[2];

static struct plan *plan_of(int fd) {
    struct plan *plan = &plans[fd];
    const char *asked = getenv(fd == STDIN_FILENO ? "FAULT_READ" : "FAULT_WRITE");
    char unit[5];
    if (plan->known)
        return plan;
    plan->known = 1;
    if (asked && sscanf(asked, "%4s %ld %ld %d %ld", unit, &plan->at, &plan->times, &plan->error, &plan->most) == 5)
        plan->by_byte = unit[0] == 'b';
    return plan;
}

static int too_early(struct plan *plan) {
    struct timespec now;
    if ((plan->error && plan->error != EAGAIN) || !plan->bad)
        return 0;
    clock_gettime(CLOCK_MONOTONIC, &now);
    return (now.tv_sec - plan->last.tv_sec) * 1000000000 + now.tv_nsec - plan->last.tv_nsec < 500000;
}

static ssize_t fault(struct plan *plan) {
    plan->bad++;
    clock_gettime(CLOCK_MONOTONIC, &plan->last);
    errno = plan->error;
    return plan->error ? -1 : 0;
}

static ssize_t call(long number, int fd, void *bytes, size_t count) {
    struct plan *plan = plan_of(fd);
    long left = plan->at - plan->moved;
    int due = plan->by_byte ? left <= 0 : plan->calls >= plan->at;
    if (due && (plan->times < 0 || plan->bad <= plan->times) && too_early(plan)) {
        errno = ENOTRECOVERABLE;
        return -1;
    }
    if (due && (plan->times < 0 || plan->bad < plan->times))
        return fault(plan);
    if (plan->by_byte && left > 0 && count > (size_t)left)
        count = (size_t)left;
    if (plan->most && count > (size_t)plan->most)
        count = (size_t)plan->most;
    ssize_t got = syscall(number, fd, bytes, count);
    plan->calls++;
    if (got > 0)
        plan->moved += got;
    return got;
}

ssize_t read(int fd, void *bytes, size_t count) {
    return fd == STDIN_FILENO ? call(SYS_read, fd, bytes, count) : syscall(SYS_read, fd, bytes, count);
}

ssize_t write(int fd, const void *bytes, size_t count) {
    return fd == STDOUT_FILENO ? call(SYS_write, fd, (void *)bytes, count) : syscall(SYS_write, fd, bytes, count);
}
