/* Preloaded into a program under callgrind, begun with --collect-atstart=no: what it does between its first
 * and its second look at the clock is counted, then between its third and its fourth, and so on. */
#include <sys/syscall.h>
#include <time.h>
#include <unistd.h>
#include <valgrind/callgrind.h>

int clock_gettime(clockid_t clock, struct timespec *time) {
    int status = (int)syscall(SYS_clock_gettime, clock, time);
    CALLGRIND_TOGGLE_COLLECT;
    return status;
}
