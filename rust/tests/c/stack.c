/* The checks of check.c on a thread of SLIDER_STACK bytes, and the names of the header's numbers. */
#define main checks_of_the_exports
#include "check.c"
#undef main

#include <pthread.h>

_Static_assert(SLIDER_VERSION == 100, "version");
_Static_assert(SLIDER_OK == 0 && SLIDER_REFUSED_KIND == 1 && SLIDER_REFUSED_SQUARE == 2 && SLIDER_REFUSED_LENGTHS == 3, "numbers");
_Static_assert(SLIDER_REFUSED_ROOM == 4 && SLIDER_REFUSED_SPENT == 5 && SLIDER_REFUSED_COLLIDES == 6, "numbers");
_Static_assert(SLIDER_REFUSED_INDEX == 7 && SLIDER_REFUSED_RECORD == 8 && SLIDER_REFUSED_LENGTH == 9, "numbers");
_Static_assert(SLIDER_REFUSED_BUDGET == 10 && SLIDER_REFUSED_SLOT == 11, "numbers");

static int status = 2;

static void *all(void *unused) {
    status = checks_of_the_exports();
    return unused;
}

int main(void) {
    pthread_attr_t small;
    pthread_t thread;
    if (pthread_attr_init(&small) || pthread_attr_setstacksize(&small, SLIDER_STACK))
        return 2;
    if (pthread_create(&thread, &small, all, NULL) || pthread_join(thread, NULL))
        return 2;
    return status;
}
