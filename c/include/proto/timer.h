#include <clib/exec_protos.h>
#include <devices/timer.h>
