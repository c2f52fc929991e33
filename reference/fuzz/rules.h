/*
 * What the header says of each call, checked: each function makes the call on a state, holds what it gave against the
 * header and against other calls, and hands back what it gave.
 */
#ifndef RULES_H
#define RULES_H

#include "calls.h"

void begin_checked(const struct call *c, const bournejade_state *before, struct told *t);
void submit_checked(const struct call *c, const bournejade_state *before, struct told *t);
void submit_line_checked(const struct call *c, const bournejade_state *before, struct told *t);
void write_line_checked(const struct call *c, const bournejade_state *before, struct told *t);
void save_checked(const struct call *c, const bournejade_state *before, struct told *t);
void restore_checked(const struct call *c, const bournejade_state *before, struct told *t);

/* The journal is also shown in two pieces, cut at a place. */
void replay_checked(const struct call *c, const bournejade_state *before, size_t cut, struct told *t);

#endif
