#include <clib/dos_protos.h>
