/* Calls with a planted fault, made of the library's. The turns must find each one. */
#ifndef PLANTED_H
#define PLANTED_H

#include "turn.h"

struct planted {
    const char *name;
    enum call of;
    library *call;
};

extern const struct planted PLANTED[];
extern const size_t PLANTED_COUNT;

/* Builds that write a wrong index where there are lone links. */
extern const struct planted WRONG[];
extern const size_t WRONG_COUNT;

#endif
