/* memories.h: registers to change a word of, and the calls that judge them. */
#ifndef WILLOWBLINK_MEMORIES_H
#define WILLOWBLINK_MEMORIES_H

#include "compare.h"

/* The slot that a word is in, hulls and then desks, the very first word in slot 0; and whether it is a desk's mark. */
uint32_t slot_of(uint32_t word);
int is_mark(uint32_t word);

/*
 * Lends a memory of so many hulls, each saved three times, and so many drafts, opened before the last save; what is
 * free holds anything.
 */
void build(uint32_t hulls, uint32_t drafts);

/*
 * The calls that judge the memory: all but a fresh start and those on texts alone. The first sets a line, the second
 * empties one. One of them, with numbers that are right where the memory allows it; and what they need to be lent.
 */
#define JUDGING 15
struct call judging_call(uint32_t turn);
void lend_good_things(void);

/* Each of them on the memory that is lent and stays: it must be refused with 1 exactly where it is not well formed. */
void judge_memory(int formed);

/*
 * One of them on a memory with one word changed. The weight follows its sheet, unless it is the word that is changed:
 * so it is the word that is judged.
 */
void change_word(uint32_t word, uint32_t number, int formed, uint32_t turn);

/* A word so changed that every call refuses the memory. */
void spoil_word(uint32_t word, uint32_t to);

#endif
