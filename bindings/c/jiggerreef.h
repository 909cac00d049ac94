/* Jiggerreef's archive for C: a checking task of Flux to an SMT-LIB 2.6 script for a Horn solver, or to one numbered refusal.
 *
 * What the caller has to see to, and all of it:
 *   - `file` points to `file_len` bytes that can be read, `buf` to `buf_len` bytes that can be written, and `lengths` to `lengths_len` values
 *     that can be written, aligned. None is NULL, even where the length is 0. `sizes` points to four values, `length` to one, aligned.
 *   - `buf` and `lengths` share no byte with `file` or with each other, and `sizes` and `length` share none with any of them.
 *   - The thread has 700 KB of stack left, which the deepest tasks need (256 levels of ForAlls or Conjs); there is no heap.
 * The archive is for x86-64 Linux. The bytes, the edition, the numbers of parts and the lengths are free: there is nothing to test before a call.
 * An uninitialised buffer or table is fine.
 *
 * `edition` tells whose names the set functions have in the script: 0 (JIGGERREEF_Z3) those of Z3, any other number (JIGGERREEF_CVC5) those of cvc5.
 *   Z3      emptyset   singleton      union      intersection  setminus   member      subset
 *   cvc5    set.empty  set.singleton  set.union  set.inter     set.minus  set.member  set.subset
 * All else is the same text, and no refusal depends on the edition.
 *
 * A call answers 0 and stores its values, or it answers the number of its refusal, stores nothing and changes no byte of `buf` or `lengths`.
 *   1       no task file: wrong length, mark or offsets
 *   2       a piece that leaves its section, an unknown code, a wrong flag, an empty name, bytes left
 *   3       a piece below the 256th level
 *   4       a name that is no simple symbol, or a comment or string with a byte outside 32 to 126
 *   5       a datatype without constructors
 *   12      a BitVec over another sort than BvSize, or a BvSize elsewhere
 *   13      SetEmpty or MapDefault anywhere but as the head of an App with an output sort
 *   14      a WKVar
 *   6       a body with another number of arguments than inputs
 *   7       a ForAll named like one around it
 *   15      a ForAll named like a constant, function, constructor, field or KVar
 *   10      a name that is not known where it stands: of a Var, of an IsCtor that is no constructor, of a KVar predicate
 *   11      a KVar with another number of arguments than its first declaration has sorts
 *   8       no such part, or a run that passes the last part
 *   9       the buffer is too short, or the table of a run
 * They stand here in the order of judging, where 2 and 3 share a place: the first met. All but 8 and 9 are survey's, and every call's.
 * docs/REFUSALS.md has each of them at length. The calls keep nothing and share nothing: they may run at the same time in several threads. */
#ifndef JIGGERREEF_H
#define JIGGERREEF_H

#include <stddef.h>
#include <stdint.h>

#define JIGGERREEF_Z3 0
#define JIGGERREEF_CVC5 1

#ifdef __cplusplus
extern "C" {
#endif

/* Stores the numbers of parts and of assertions, the length of the script and that of its longest part; or answers one of survey's refusals. */
uint8_t jiggerreef_survey(const uint8_t *file, size_t file_len, uint8_t edition, size_t sizes[4]);

/* Writes part `index` to the buffer's start and stores its length; or answers survey's refusal, then 8, then 9. Bytes behind the part are unchanged. */
uint8_t jiggerreef_part(const uint8_t *file, size_t file_len, uint8_t *buf, size_t buf_len, uint8_t edition, size_t index, size_t *length);

/* Writes the script to the buffer's start and stores its length; or answers survey's refusal, then 9. Bytes behind the script are unchanged. */
uint8_t jiggerreef_script(const uint8_t *file, size_t file_len, uint8_t *buf, size_t buf_len, uint8_t edition, size_t *length);

/* Writes parts `first` to `first` + `count` - 1, joined, to the buffer's start, the length of each to the table's first places, and stores the
 * joined length; or answers survey's refusal, then 8 if `first` + `count`, whatever their size, is more than there are parts, then 9 if the joined
 * text is longer than the buffer or the table has fewer than `count` places. Bytes behind the text and places behind the lengths are unchanged.
 * All of it is written or none. With `count` 0 and `first` up to the number of parts the length is 0. The call costs the file and what is
 * written, where `count` calls of `jiggerreef_part` cost the file `count` times. */
uint8_t jiggerreef_run(const uint8_t *file, size_t file_len, uint8_t *buf, size_t buf_len, uint32_t *lengths, size_t lengths_len, uint8_t edition,
    size_t first, size_t count, size_t *length);

#ifdef __cplusplus
}
#endif

#endif
