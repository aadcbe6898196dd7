/* Sets an error as C code does, by a function that it is given, and aborts before Python sees it. */
#include <stdlib.h>

void set_and_abort(void (*set)(void *, void *), void *type, void *value) {
    set(type, value);
    abort();
}
