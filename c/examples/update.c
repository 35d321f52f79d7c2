/* Two tasks add to a counter that they share, with no Forbid and no semaphore: an addition can get lost. */
#include <clib/alib_protos.h>
#include <clib/exec_protos.h>
#include <dos/dos.h>
#include <stdio.h>

static LONG counter;
static struct Task *first;

static void add(void)
{
    int i;
    LONG seen;

    for (i = 0; i < 3; i++) {
        seen = counter;
        counter = seen + 1;
    }
}

static void second(void)
{
    add();
    Signal(first, SIGBREAKF_CTRL_C);
}

int main(void)
{
    first = FindTask(NULL);
    CreateTask("second", 0, second, 4096);
    add();
    Wait(SIGBREAKF_CTRL_C);
    printf("the counter is %ld\n", counter);
    return 0;
}
