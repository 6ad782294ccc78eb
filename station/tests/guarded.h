/* What a program that is linked with guarded.c may ask of it. */
#ifndef GUARDED_H
#define GUARDED_H

/* What is lent to a call, and the place of its reply. */
enum { REPLY, CONTEXT, STORE, WORDS, BYTES, OUT, AREAS };

/* Planted faults, each of which guarded.c must see: a byte read before an area, a byte read behind it, a byte written in it (for what may
   only be read) or behind it; then a refused call that changes the output, one that changes the store, and an answer that hangs on what
   the stack held before. 0: none. */
enum { READ_BEFORE = 1, READ_BEHIND = READ_BEFORE + AREAS, WRITE = READ_BEHIND + AREAS, OUT_CHANGED = WRITE + AREAS, STORE_CHANGED,
       STACK_READ, FAULTS };

extern int planted_fault;

#endif
