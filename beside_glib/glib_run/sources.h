/* How the library numbers what the harness gives it. */
#pragma once

enum {
    FIRST_DESCRIPTOR = 1000000, /* the script's descriptors have numbers that no descriptor of the process has */
    OWN_SOURCES = 1             /* of each context: the one that lets ticks pass, which is attached first */
};
