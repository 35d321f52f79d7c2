/* timer.device, V37. The host's struct timeval is read first, and then has another name. */
#ifndef DEVICES_TIMER_H
#define DEVICES_TIMER_H
#include <exec/exec.h>
#include <stdlib.h>
#include <sys/time.h>
#define timeval execc_timeval
struct timeval {
    ULONG tv_secs, tv_micro;
};
struct timerequest {
    struct IORequest tr_node;
    struct timeval tr_time;
};
#define TIMERNAME "timer.device"
enum { UNIT_MICROHZ, UNIT_VBLANK, UNIT_ECLOCK, UNIT_WAITUNTIL, UNIT_WAITECLOCK };
enum { TR_ADDREQUEST = CMD_NONSTD, TR_GETSYSTIME, TR_SETSYSTIME };
static inline void AddTime(struct timeval *to, struct timeval *more) {
    to->tv_secs += more->tv_secs + (to->tv_micro + more->tv_micro >= 1000000);
    to->tv_micro = (to->tv_micro + more->tv_micro) % 1000000;
}
static inline void SubTime(struct timeval *from, struct timeval *less) {
    from->tv_secs -= less->tv_secs + (from->tv_micro < less->tv_micro);
    from->tv_micro = (from->tv_micro + 1000000 - less->tv_micro) % 1000000;
}
/* -1 if the first is greater, 1 if the second is, 0 if they are equal. */
static inline LONG CmpTime(struct timeval *a, struct timeval *b) {
    if (a->tv_secs != b->tv_secs) return a->tv_secs < b->tv_secs ? 1 : -1;
    return a->tv_micro == b->tv_micro ? 0 : a->tv_micro < b->tv_micro ? 1 : -1;
}
#endif
