/* Turns drawn from nothing and turns changed a little. */
#ifndef DRAW_H
#define DRAW_H

#include "random.h"
#include "turn.h"

/* A new turn: a card of some shape, mostly accepted, and a call that mostly fits it. */
void draw_fresh(struct random *random, struct turn *turn);

/* One to four changes of a turn; `other` lends parts to some of them. */
void draw_change(struct random *random, struct turn *turn, const struct turn *other);

#endif
