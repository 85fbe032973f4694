/* A program that loads the shared library by itself, and lets it go while a thread that has called a service goes on:
 * when that thread ends, the library is still there.
 *
 * usage: unload LIBRARY
 *
 * If something is wrong, it prints a line and exits with status 1, or a signal ends it. */
#include "harness.h"

#include <dlfcn.h>

static likes_service *service;
static uint32_t (*like)(likes_service *, uint32_t, uint32_t);
static bool has_called, may_end;

static void *call_once(void *at) {
    IS(like(service, 0, 0), LIKES_LIKED);
    set(&has_called);
    while (!is_set(&may_end))
        sleep_for(1000000);
    return at;
}

/* The address of a call, without a cast that C forbids. */
static void find(void *library, const char *name, void *call) {
    void *at = dlsym(library, name);
    hold(at != NULL, name);
    memcpy(call, &at, sizeof at);
}

int main(int count, char **words) {
    uint32_t (*open)(const likes_options *, likes_service **), (*close)(likes_service *);
    likes_options options = {.pages = 1, .users = 1, .seats = 1};
    pthread_t thread;
    void *library = dlopen(count == 2 ? words[1] : "", RTLD_NOW | RTLD_LOCAL);
    hold(count == 2 && library != NULL, "the library was not loaded");
    find(library, "likes_service_open", &open);
    find(library, "likes_service_close", &close);
    find(library, "likes_service_like", &like);
    IS(open(&options, &service), LIKES_OK);
    start_thread(&thread, call_once, NULL);
    while (!is_set(&has_called))
        sleep_for(1000000);
    IS(close(service), LIKES_OK);
    hold(dlclose(library) == 0, "the library was not let go");
    set(&may_end);
    pthread_join(thread, NULL);
    puts("a thread ended after the library was let go");
    return 0;
}
