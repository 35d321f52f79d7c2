/* What the program has by pointers, and the machine by addresses: the newest object of a pointer or an address is
 * meant. And names. */
#include "execc.h"
#include <stdlib.h>

static Object *objects;
static int count, room;

Object *object_add(void *host, ULONG address, char kind) {
    if (count == room && !(objects = realloc(objects, (room = 2 * room + 64) * sizeof *objects)))
        stop(FAILED, "out of memory");
    objects[count] = (Object){host, address, kind, 0, 0};
    return &objects[count++];
}

Object *object_of(const void *host, char kind) {
    for (int i = count - 1; i >= 0; i--)
        if (objects[i].host == host && objects[i].kind == kind) return &objects[i];
    return 0;
}

Object *object_at(ULONG address) {
    for (int i = count - 1; i >= 0 && address; i--)
        if (objects[i].address == address) return &objects[i];
    return 0;
}

/* A message or a semaphore that lies in some memory of the program. */
Object *object_within(const void *from, size_t size) {
    for (int i = count - 1; i >= 0; i--)
        if ((char *)objects[i].host >= (const char *)from && (char *)objects[i].host < (const char *)from + size &&
            (objects[i].kind == 'm' || objects[i].kind == 's'))
            return &objects[i];
    return 0;
}

void object_remove(Object *object) {
    memmove(object, object + 1, (char *)(objects + count) - (char *)(object + 1));
    count--;
}

void *host_at(ULONG address) {
    Object *object = object_at(address);
    return object ? object->host : 0;
}

/* A name of the program as one of the machine: what a machine file does not allow becomes '_'. Two names that become
 * one are refused. */
const char *name_of(const char *name, const char *what) {
    static struct { char *own, made[32]; } names[512];
    static int names_count;
    char made[32];
    int n = 0;
    if (!name || !*name) refuse("a name is needed for the %s; give it one", what);
    for (const char *c = name; *c && n < 31; c++)
        made[n++] = (*c >= '0' && *c <= '9') || strchr(".-", *c) || isalpha((UBYTE)*c) ? *c : '_';
    made[n] = 0;
    for (int i = 0; i < names_count; i++) {
        if (!strcmp(names[i].own, name)) return names[i].made;
        if (!strcmp(names[i].made, made))
            refuse("\"%s\" and \"%s\" are both \"%s\" in a machine file; rename one of them", names[i].own, name, made);
    }
    if (names_count == 512) refuse("there are more than 512 names; use fewer");
    names[names_count].own = strdup(name);
    strcpy(names[names_count].made, made);
    return names[names_count++].made;
}
