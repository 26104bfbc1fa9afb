/* The lead finder: Clark's query evaluation with negation as failure, over lent slices of 16-bit words.
 *
 * Each call returns 0, or the number of a refusal, with nothing touched (leads_read_text has two exceptions):
 *   1  the deck's header or length      6  the query has over 500 cells
 *   2  a symbol word, or two equal numbers   7  the query is not literals, or misnumbered
 *   3  the clause starts                8  the store has under 1,024 or over 65,535 words
 *   4  a clause over 256 cells          9  the scratch has under 8,192 words
 *   5  a clause that is not a head and literals, or whose variables are misnumbered
 *  10  a text that cannot be read     11  a result longer than the lent list, or a deck that was read and has over 16,384 words
 *  12  the store does not begin with the open goals that are said to be there
 *  13  a variable of a clause is in no positive literal of its body
 *  14  a variable of the query is in none of its positive literals
 *  15  a member's list that has not one word a symbol, or another word than 0, or 1 for a predicate
 *  16  a barred predicate is among the query's literals, or those of the open goals, or is reached from them
 *  17  the list does not begin with that many answers of that many terms, the count is 0 or over 65,535, or there is no such column
 *  18  an entry of the column is not a number
 *  19  drill terms of over 8 cells, or after a term that is not of their list
 * Checks go in number order, each over everything before the next. A call makes those that are about what it is given:
 *   leads_open        1 to 5
 *   leads_check       1 to 7, 13, 14
 *   leads_run         1 to 9, 13 to 16
 *   leads_read_text   10, 11, then 1 to 5
 *   leads_write_text  1 to 5, 11
 *   leads_continue    1 to 5, 8, 9, 12, 13, 15, 16
 *   leads_press       1 to 5, 8, 9, 12, 13, 15, 16
 *   leads_preview     1 to 5 of the deck, then 1, 3, 4, 5 of its copy with the clause, then 6 to 9, 13 to 16
 *   leads_drill       1 to 5, 19
 *   leads_levels      1 to 5
 *   leads_mean        1 to 5, 17, 18
 * So a deck with a loose variable (13) can be opened, read and written as text, and mended, and its drill terms are listed, its levels told and means taken over it, but it takes no query and no open goals.
 *
 * A deck is its words, at most 16,384, of format 1 or 2. Format 2 has numbers too, as lengths of shots:
 *   header   8 words: the format, 1 or 2; the number of symbols S, 1 to 4,096; 8; the number of clauses C; 8 + R, where the clause words
 *            begin; the number of cells T; 8 + R + C, where the cells begin; 8 + R + C + T, the number of all words. R is the number of words
 *            that the symbols take: S in format 1, 2S in format 2
 *   symbols  numbered from 0. In format 1 each has one word: the number of its arguments, 0 to 15, for a functor (a station is a functor
 *            without arguments), and 256 more for a predicate. In format 2 each has two words, side by side, those of symbol i from word
 *            8 + 2i on. Of a functor or a predicate the first is as in format 1, and the second is 0. Of a number the first is 512, and
 *            the second its value, -32,768 to 32,767, in two's complement: 35 is 35, -35 is 65,501. No two numbers have the same value, so
 *            equal lengths are one symbol
 *   clauses  one word each: where the clause begins, counted from the first cell. The first is 0, each is greater than the one before, and
 *            a clause ends where the next one begins, or with the cells. Each has at least one cell, at most 256
 *   cells    a symbol's number; a predicate's number and 16,384 more, which is that predicate negated; or 32,768 and a variable's number, 0 to
 *            1,023. A symbol is followed by as many terms as it has arguments. A clause is its head and the literals of its body, a query is
 *            literals alone. Variables are numbered from 0 in each, in order of first appearance
 * In cells a number stands by its symbol's number, like any functor without arguments: clauses, queries, answers, drill terms and members' lists
 * (one word a symbol, not two) are the same in both formats, and a run does not look at values. So
 *   2 5 8 2 18 6 20 26   0 0  0 0  512 65501  512 28  258 0   0 3   4 0 2  4 1 3
 * has the symbols 0 and 1 (stations), 2 and 3 (the numbers -35 and 28) and 4 (a predicate of two arguments), and says 4(0, 2) and 4(1, 3).
 *
 * A length is a number of words, or of bytes for text. A pointer may be anything where its length is 0, but not null; nor may a pointer to
 * a result be null. The slices must not overlap.
 *
 * Nothing is allocated: tables stand on the stack. A run has some 100 KiB of them, and reading a text up to 350; beside them a run recurses over its
 * levels, 33 at most, and over terms, some 1,300 deep at most.
 */
#ifndef LEADS_H
#define LEADS_H

#include <stddef.h>
#include <stdint.h>

#ifdef __cplusplus
extern "C" {
#endif

/* Opens a deck: refusals 1 to 5. */
uint32_t leads_open(const uint16_t *deck, size_t deck_words);

/* Checks a query against a deck: refusals 1 to 7, 13 and 14. */
uint32_t leads_check(const uint16_t *deck, size_t deck_words, const uint16_t *query, size_t query_words);

/* Runs a query for a member: refusals 1 to 9 and 13 to 16. bars is the member's list, one word a symbol: 1 bars a predicate, 0 doesn't, and functors and
 * numbers have 0; a list of zeros bars nothing. A query is refused with 16 if a barred predicate is among its literals or can be reached from them through
 * clause bodies, negated or not, whether or not anything matches there. So over two decks that pass 1 to 5 and 13, with the same symbols, and the same
 * clauses in the same order about every predicate that is not barred and that the query names or reaches, the same query, list, budget and
 * lengths give the same: the same refusal, or the same stop, steps, cost and counts, the same answers and the same open goals. Nothing is promised
 * of the rest of the store and of the scratch, nor of the time that a call takes, which grows with the whole deck. Where it returns 0:
 *   stop          0 finished, 1 the next step's cost is not left of the budget, 2 the next answer does not fit, 3 the next step's goals
 *                 do not fit the store
 *   steps         the steps used over all levels, at most the cost
 *   cost          what they cost together, at most the budget. A step on a positive literal costs 1 and one more for each equation that
 *                 matching takes, over every clause tried, whether it matches or not. Up to 64 clauses about the predicate are all tried;
 *                 of more, where the literal's first argument begins with a functor, those whose head begins with a functor whose number
 *                 is the same modulo 16, or with a variable. So looking for one station among a thousand facts of one place costs some
 *                 sixty, and going through them all costs a thousand. Every other step costs 1. A step is taken only if its whole cost is
 *                 left, so a run may stop with 1 and budget left; a step not taken adds nothing to steps or cost. A match is broken off
 *                 where its equations pass what is left, so doubled terms do not make a call run on. The cost is not a time: an equation
 *                 between long terms with many variables can take a millisecond
 *   answer_count  the number of goals at the start of the answer list; the words after them are untouched
 *   pending, parked   the numbers of goals at the start of the store: the pending ones in order, then the parked ones in order of
 *                 parking; the rest of the store, and the scratch, are free
 * A goal is word 0: its whole length plus 4,096 times its mark (0 pending or answer, 1 floundered, 2 undecided, 3 oversized, 4 deep);
 * word 1: the number of its answer-term cells; then its cells, answer terms first, then literals.
 * No goal of a query is left with mark 1, and no answer has a variable.
 * Every length of the answer list and every budget is accepted, 0 included. */
uint32_t leads_run(const uint16_t *deck, size_t deck_words, const uint16_t *query, size_t query_words, const uint16_t *bars,
                   size_t bar_words, uint32_t budget, uint16_t *answers, size_t answer_words, uint16_t *store, size_t store_words,
                   uint16_t *scratch, size_t scratch_words, uint32_t *stop, uint32_t *steps, uint32_t *cost, uint64_t *answer_count,
                   uint32_t *pending, uint32_t *parked);

/* Reads a text as a deck: refusal 10 of the text, then 11 where the words do not fit in the list or are over 16,384, then 1 to 5 of the
 * deck. Where it returns 0, the list begins with the deck, of deck_words words; the words after it are untouched. place is
 * written on 10 only: the first byte of the token or name at fault, counted from 0, or text_bytes where the text ends too early. After
 * 1 to 5 the list is free. */
uint32_t leads_read_text(const uint8_t *text, size_t text_bytes, uint16_t *deck, size_t deck_room, size_t *deck_words,
                         size_t *place);

/* Writes a deck as text: refusals 1 to 5, then 11 where the text is longer than the list. Where it returns 0, the list begins with the
 * text, of text_bytes bytes; the bytes after it are untouched. A line for each symbol, `fn s0/0.` or `pr s4/1.`, then one for each clause,
 * as `s4(_0) :- s2(_0), ~s3(_0).`; each ends in byte 10. That of a deck of format 2 begins with the line `v2.`, and a number is declared as
 * `nu s2 -35.`. */
uint32_t leads_write_text(const uint16_t *deck, size_t deck_words, uint8_t *text, size_t text_room, size_t *text_bytes);

/* Carries on from the goals at the start of the store: refusals 1 to 5, 8, 9, 12, 13, 15 and 16. pending and parked are their numbers, as the run before
 * has returned them, and terms is the number of answer terms of each: for the goals of a query, the number of its variables. To carry on,
 * pass the same deck, the same list bars, the store as it was left (or a store of another length that begins with its goals) and a new budget, and take the
 * answers of all runs together: each lists its own from the start of its list. Any store may be passed that begins with that many goals
 * over the deck's symbols and their arities, none at all included (then the run is finished with 0 steps):
 * pending ones marked 0, then parked ones marked 1 to 4, each of that many answer terms and 1,024 words or fewer, its variables numbered by
 * first appearance, answer terms first; else it is refused with 12. Goals that no run has left may have loose variables: then one may be
 * parked with mark 1, and an answer may have a variable. Pending goals go on, parked ones stay parked, with new ones behind them.
 * For a member, 16 looks from the literals of all given goals, pending and parked; what a run has left is not refused for the same list, and
 * over two decks as above, from stores of one length that begin with the same goals, the member gets the same.
 * A "not" that was cut short has left its goal first and pending, as it was, and is done again from its start: so the steps and the cost of
 * the runs need not add up to those of one run, and with a budget too small for the whole "not", or for one step, nothing moves. The results
 * are as those of leads_run: steps, cost and answer_count of this call, pending_after and parked_after the numbers of goals that the store
 * begins with now. */
uint32_t leads_continue(const uint16_t *deck, size_t deck_words, uint64_t pending, uint64_t parked, uint64_t terms,
                        const uint16_t *bars, size_t bar_words, uint32_t budget, uint16_t *answers, size_t answer_words,
                        uint16_t *store, size_t store_words, uint16_t *scratch, size_t scratch_words, uint32_t *stop, uint32_t *steps, uint32_t *cost, uint64_t *answer_count,
                        uint32_t *pending_after, uint32_t *parked_after);

/* Presses: takes one step of level 0 with all of its inner levels, from the goals at the start of the store. Refusals as leads_continue, on a
 * finished query too. The five numbers from steps on are a display's record, which goes in and comes back:
 *   struct leads_display { uint64_t steps, cost, answer_count, pending, parked; };
 *   struct leads_display d = {0, 0, 0, pending, parked};   the first record, with the numbers that leads_run with budget 0 has returned
 *   leads_press(.., &outcome, &d.steps, &d.cost, &d.answer_count, &d.pending, &d.parked);
 * pending and parked are the numbers of goals that the store begins with, before the press and after it; terms and bars are as in leads_continue,
 * and terms is no part of the record. What a press leaves is not refused for the same list. Where it returns 0:
 *   outcome       4 where the step was taken (and with it each "not" in it), or the stop that prevented it: 0 nothing is pending, 1 to 3 as
 *                 in leads_run
 *   steps, cost   grow by those of the press. A press that is cut short (1 to 3) leaves the goals as it found them, and adds what it has
 *                 spent: 0 where level 0's own step was not taken, else the "not" and the steps of its inner levels
 *   answer_count  grows by the answer found: one at most, at the start of this press's list; the words after it are untouched
 * The three counts stay at 18,446,744,073,709,551,615 rather than wrap. A press on a finished query (0) changes nothing: no word of answers,
 * store or scratch, and no number but outcome. */
uint32_t leads_press(const uint16_t *deck, size_t deck_words, uint64_t terms, const uint16_t *bars, size_t bar_words,
                     uint32_t budget, uint16_t *answers, size_t answer_words, uint16_t *store, size_t store_words,
                     uint16_t *scratch, size_t scratch_words, uint32_t *outcome, uint64_t *steps, uint64_t *cost,
                     uint64_t *answer_count, uint64_t *pending, uint64_t *parked);

/* Tries a clause: a query's result as if the clause were added at the deck's end. The deck is only read, and stays as it is. clause is the
 * clause's cells, as they would stand in the deck; any number of them may be given. Refusals 1 to 5 are first those of the deck alone.
 * Then the copy of the deck with the clause is looked at: 1 if it would have over 16,384 words (the deck's, one more and the clause's cells),
 * 3 without cells, 4 over 256 of them, 5 if they are not a clause. Then come a run's refusals over the copy: 13 if the clause, or one of the
 * deck's, has a loose variable, 16 if the query reaches a barred predicate, the clause's body among those that lead on. All that is returned
 * and left is as leads_run over the copy would have it, and all that leads_run says of its deck holds of the copy. To see what a clause
 * changes, compare with leads_run over the deck. The goals that are left open are the copy's: they are carried on over a deck that has the
 * clause. No room is lent for the copy: the call takes 32 KiB of stack more than leads_run. */
uint32_t leads_preview(const uint16_t *deck, size_t deck_words, const uint16_t *clause, size_t clause_words, const uint16_t *query,
                       size_t query_words, const uint16_t *bars, size_t bar_words, uint32_t budget, uint16_t *answers,
                       size_t answer_words, uint16_t *store, size_t store_words, uint16_t *scratch, size_t scratch_words, uint32_t *stop,
                       uint32_t *steps, uint32_t *cost, uint64_t *answer_count, uint32_t *pending, uint32_t *parked);

/* Lists drill terms: all variable-free terms of at most n cells over the deck's functors, n from 0 to 8, shorter first, then by cells
 * compared left to right as numbers; each one time. Refusals 1 to 5, then 19 where n is over 8 or the given term (`after`) is not of that
 * list. Where it returns 0, the list begins with the cells of the terms after the given one, one term after another, as many as fit
 * whole; the words after them are untouched, and count is the number of terms. An empty given term means from the start. To go on,
 * give a copy of the last term written (the slices must not overlap). Each term is made from the one before, by at most 16 walks over
 * the symbols. */
uint32_t leads_drill(const uint16_t *deck, size_t deck_words, uint32_t n, const uint16_t *after, size_t after_words,
                     uint16_t *list, size_t list_words, uint64_t *count);

/* Which rules rest on which: refusals 1 to 5. A predicate's level is at least that of each predicate in its bodies, and at least one more where
 * that one is negated. Where it returns 0, there are two cases:
 *   circular is 0      there are levels, and the numbers are the least ones, from 0 on: at a symbol's number its level, 0 for functors and past
 *                      the deck's symbols. A fresh run opens no level deeper than the highest among its query's literals, a negated one counting
 *                      one more than its predicate
 *   circular is not 0  there are none, and all numbers are 0: the predicate with the number circular - 1 is on a chain of rules through a "not"
 *                      back to itself, and none with a lower number is
 * There are 4,096 numbers. Of them as many are written as the list has words, from its start on; words behind them are untouched. */
uint32_t leads_levels(const uint16_t *deck, size_t deck_words, uint16_t *levels, size_t level_words, uint32_t *circular);

/* The sum of a column of answers and its mean: refusals 1 to 5, then 17 of the list, the count and the column, over all answers, then 18 of the
 * column's entries. The list is an answer list that a run has left, or one filled by hand: it begins with count answers, 1 to 65,535, of terms
 * terms each, goals as leads_continue takes pending ones, but without literals; the words after them are not looked at. column is the place of one
 * of the terms, counted from 0. Of a run, count is its answer_count and terms the number of the query's variables, so that each variable's
 * number is its column; then only a count of 0 or over 65,535, or a column past the
 * terms, is 17. Where it returns 0:
 *   sum        the sum of the values, -2,147,450,880 to 2,147,385,345
 *   whole      the mean's whole part, rounded down: the sum -7 of 2 answers gives -4 and 1
 *   remainder  what is left, 0 up to the count less one: the sum is whole times count, and remainder
 * A run that has goals left open (its stop is not 0, or goals are pending or parked) may have listed only some answers; the mean is of those. */
uint32_t leads_mean(const uint16_t *deck, size_t deck_words, const uint16_t *list, size_t list_words, uint64_t count, uint64_t terms,
                    uint64_t column, int64_t *sum, int64_t *whole, uint64_t *remainder);

#ifdef __cplusplus
}
#endif

#endif
