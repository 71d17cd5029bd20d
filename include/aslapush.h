/* aslapush.h: launch lines for Windows processes, written and read in UTF-16 units, proved.
 *
 * Link crates/aslapush/out/libaslapush.a (`rt lib` in crates/aslapush), x86-64. It needs `memcpy` at link time, and nothing else.
 *
 * What is lent
 *     Units are UTF-16 code units; unpaired surrogates are ordinary units. Nothing is allocated and nothing is kept: every text, table, output and store is
 *     lent by the caller as a pointer and a number of elements. A pointer is never NULL, also where its number is 0, and what is written (an output, a span
 *     table, a store, an answer) overlaps nothing else that is handed to the same call. That is all a caller owes: any content may be lent, and an output
 *     need not be cleared.
 *
 * What is answered
 *     A function that can refuse returns 0 for an answer, else the refusal's number. Every call fills answer[4] (those of the launch line cache answer[5],
 *     told there), which is how it answers and no part of what is lent:
 *         answer[0]  the refusal's place: the index of the record or entry at fault plus 1, else 0
 *         answer[1]  the number of arguments or entries read (reading only)
 *         answer[2]  the number of units written; of a block that is read, the number used
 *         answer[3]  0
 *     A refusal changes nothing that was lent, and its answer[1] and answer[2] are 0. On success the result fills the front of the output (and of the span
 *     table), and everything behind it keeps its content.
 *
 * On Windows (found by running the library under Wine, and from C#)
 *     No terminating NUL is written, and CreateProcessW wants one: lend one unit less than there is, and store 0 at out[answer[2]].
 *     CreateProcessW counts that NUL in its 32,767 units, so a line that is built stops one unit before, at ASLAPUSH_LINE_UNITS: of a line of one unit more
 *     it cut off the last in a trial. An array of ASLAPUSH_LINE_UNITS + 1 units has room for every line and its NUL.
 *     An empty array, vector or span of C# or C++ may have a null pointer, which this interface does not take: lend the address of any element instead, with
 *     the number 0.
 *     Two lists of entries can give one block, as key `a` with value `b=c` and key `a=b` with value `c`: `=` in a key is written as it is. Read back,
 *     the block has the first of the two.
 */
#ifndef ASLAPUSH_H
#define ASLAPUSH_H

#include <stddef.h>
#include <stdint.h>

#ifdef __cplusplus
extern "C" {
#endif

/* Refusals: the table "Refusals" of README.md says when each is given, and this list follows it. */
enum {
    ASLAPUSH_RECORD = 1,     /* a record's kind is none, its part reaches past the text, or the list ends inside a record */
    ASLAPUSH_LENGTH = 2,     /* more units to read or in the whole result than the limit below */
    ASLAPUSH_PLACES = 3,     /* fewer places are lent than are needed: a span table has one for each argument, two for each entry; a store's are all used */
    ASLAPUSH_ROOM = 4,       /* fewer units are lent than the whole result has, or left in a store than the entry uses */
    ASLAPUSH_NUL = 5,        /* a NUL in a program, script, argument, key or value */
    ASLAPUSH_LINE_BREAK = 6, /* CR or LF in a regular argument of a batch line */
    ASLAPUSH_SCRIPT = 7,     /* a script contains a quote mark, or its last unit as lent is a backslash */
    ASLAPUSH_ENTRY = 8       /* to read: an entry or the final NUL runs into the end, an entry has no `=` behind its first unit, or a first NUL stands alone */
};

/* Kinds of argument records. */
enum { ASLAPUSH_REGULAR = 0, ASLAPUSH_RAW = 1 };

/* Limits: the most units of each. What has more is refused by ASLAPUSH_LENGTH, however much is lent, so room for the limit is always enough. */
enum {
    ASLAPUSH_READ_UNITS = 32767,                /* a line to be read up to its first NUL or its end, or where that is empty the executable name */
    ASLAPUSH_LINE_UNITS = 32766,                /* an ordinary line that is built, without the NUL that CreateProcessW counts */
    ASLAPUSH_BATCH_UNITS = ASLAPUSH_LINE_UNITS, /* a batch line that is built */
    ASLAPUSH_BLOCK_UNITS = 65535                /* an environment block that is built, and what is lent to read one from */
};

/* What else is always enough: numbers of a span table for a line (theorem always_enough of docs/PROMISES.md) and for a block (table_always), and units of a
 * status text (status_bound). */
enum { ASLAPUSH_SPAN_NUMBERS = ASLAPUSH_READ_UNITS + 1, ASLAPUSH_ENTRY_NUMBERS = 87376, ASLAPUSH_STATUS_UNITS = 21 };

/* Room that is enough for what is at hand, by theorems of docs/PROMISES.md.
 *     an ordinary line      program_len + 2, and for each argument of n units 2n + 3 (form_bound, and the space in front of it)
 *     a batch line          script_len + 31 (batch_line_length), and for each argument of n units 8n + 3 (batch_form_bound, and the space)
 *     reading n units       n units of text (text_bound) and n / 2 + 1 places, each of two numbers (count_bound); where the line is empty, n is the
 *                           executable name's units. With n + 2 numbers nothing need be measured first, which is faster
 *     a block               exactly key_len + value_len + 2 for each entry, and 1; without entries 2
 *     reading a block       of n units: 4 * (n / 3) numbers, n / 3 rounded down (table_enough): an entry has at least three units with its NUL */

/* Reads a line by the C run-time rules. The line is the lent units up to the first NUL or the end; an empty line has one argument, the executable name as
 * it is. The texts lie one after another from the front of `text`; `spans` gets start and length of each, and an odd last number in it is no place.
 * Refuses 2, 3, 4, in this order.
 *     exe "a b" c      gives 3 arguments, 7 units: texts `exea bc`, spans 0 3 3 3 6 1 */
uint32_t aslapush_parse_lp_cmd_line(const uint16_t *units, size_t units_len, const uint16_t *exe_name, size_t exe_name_len, uint16_t *text,
                                    size_t text_len, uint32_t *spans, size_t spans_len, uint64_t answer[4]);

/* Start and length of argument `index` in `text`, by the span table: part[0] and part[1]. Both are 0 for an index not in the table or a span reaching past
 * the text. Never refuses.
 *     after the reading above, index 1 gives 3 and 3 */
void aslapush_argument(const uint16_t *text, size_t text_len, const uint32_t *spans, size_t spans_len, size_t index, uint64_t part[2]);

/* Builds an ordinary line: quote, program, quote, then one space and its form for each argument. `records` holds three numbers an argument: kind, start and
 * length in `text`; parts may overlap. Any `force_quotes` but 0 puts every regular argument in quotes.
 * Refuses 1 over all records; 5 for the program; 5 argument by argument; 2; 4.
 *     program exe, records 0 0 3  0 3 0, text `a b`      gives "exe" "a b" "" */
uint32_t aslapush_make_command_line(const uint16_t *program, size_t program_len, const uint32_t *records, size_t records_len, const uint16_t *text,
                                    size_t text_len, uint32_t force_quotes, uint16_t *out, size_t out_len, uint64_t answer[4]);

/* Builds the line that has cmd.exe run a batch script. One final NUL of the script is dropped.
 * Refuses 1 over all records; 7; 5 for the script; then argument by argument 6 before 5; 2; 4.
 *     script a.bat, records 0 0 3, text `x y`      gives cmd.exe /e:ON /v:OFF /d /c ""a.bat" "x y"" */
uint32_t aslapush_make_bat_command_line(const uint16_t *script, size_t script_len, const uint32_t *records, size_t records_len, const uint16_t *text,
                                        size_t text_len, uint32_t force_quotes, uint16_t *out, size_t out_len, uint64_t answer[4]);

/* Builds an environment block: key, `=`, value, NUL for each entry, and one NUL more; no entries are two NULs. `records` holds four numbers an entry: start
 * and length of the key, start and length of the value in `text`.
 * Refuses 1 over all records; 5 entry by entry; 2; 4.
 *     records 0 1 1 1, text `A1`      gives A=1 NUL NUL, 5 units */
uint32_t aslapush_make_envp(const uint32_t *records, size_t records_len, const uint16_t *text, size_t text_len, uint16_t *out, size_t out_len,
                            uint64_t answer[4]);

/* Lists the entries of an environment block. `spans` gets four numbers an entry: start and length of its key, start and length of its value, in units of
 * `block` itself, so nothing is copied. An entry ends at NUL and splits at its first `=` that is not its first unit: `=C:=x` has the key `=C:`. A NUL where
 * an entry would start ends the block; no entries are two NULs. answer[1] is the number of entries, answer[2] the units used, with the final NUL: what is
 * lent behind them is ignored, but counts for refusal 2.
 * Refuses 2; 8 at the first bad entry, counted from 1, where a missing final NUL counts as the entry after the last; 3.
 * The first 4 * answer[1] numbers of `spans` are records for aslapush_make_envp with `block` as their text: it gives the units used again (lent_on).
 *     A=1 NUL =C:=x NUL NUL and 3 units more      gives 2 entries, 11 units used: spans 0 1 2 1  4 3 8 1
 *     A=1 NUL B NUL NUL                           gives refusal 8 at place 2 */
uint32_t aslapush_read_envp(const uint16_t *block, size_t block_len, uint32_t *spans, size_t spans_len, uint64_t answer[4]);

/* Writes the text of a child process's recorded status. Refuses 4.
 *     3221225477      gives exit code: 0xc0000005, 21 units */
uint32_t aslapush_status_text(uint32_t status, uint16_t *out, size_t out_len, uint64_t answer[4]);

/* The signed code of a recorded status. Never refuses.
 *     3221225477      gives -1073741819 */
int32_t aslapush_code(uint32_t status);

/* 1 where a path, without terminator, ends in `.bat` or `.cmd` in letters of either case, else 0. Never refuses.
 *     a.CMD      gives 1 */
uint32_t aslapush_has_bat_extension(const uint16_t *path, size_t path_len);

/* The class of a unit: 1 NUL, 2 CR and LF, 3 space and tab, 4 quote, 5 backslash, 6 percent, 7 other units that force quotes in a batch line, 0 the rest.
 *     34      gives 4 */
uint8_t aslapush_class_of(uint16_t unit);

/* The launch line cache: ordinary lines, each built once and found again. docs/CACHE.md says how many units to lend, and what a store looks like in memory.
 *
 * A store is an index of ASLAPUSH_CACHE_WORDS words and any number of units. The caller owns both, makes the store once, and lends the same two, with the same
 * number of units, to every call. Only the calls below may change them: on other content a call stays within what is lent, a line that it names lies within
 * the units, and its answer means nothing more.
 *     An entry is a line of aslapush_make_command_line with its key and a fingerprint. The key is the program, whether `force_quotes` is 0, and kind and text
 *     of every argument; keys are compared unit by unit, wherever the texts lie. The fingerprint is any 64-bit hash of the key, or any number that mostly
 *     differs where keys do. It is only a hint: under a bad one more keys are compared, and the line is never another key's. The same key under another
 *     fingerprint is another entry, so a caller makes it by one rule.
 *     Start and units of a line hold until the next make or clear: storing moves nothing.
 *     A store must not be used by two threads at a time without a lock. Lookups change nothing of it, so lookups alone may run side by side.
 *
 * Lookup and store fill answer[5]:
 *     answer[0]  the refusal's place: the index of the record at fault plus 1, else 0
 *     answer[1]  ASLAPUSH_CACHE_MISSED, .._HIT, .._HELD or .._STORED
 *     answer[2]  where in `units` the line starts
 *     answer[3]  how many units it has
 *     answer[4]  0
 * After a miss answer[2] and answer[3] are 0, after a refusal all but the place; and a refusal changes nothing of the store.
 *
 *     static uint64_t words[ASLAPUSH_CACHE_WORDS], answer[5];
 *     static uint16_t units[40000], line[ASLAPUSH_LINE_UNITS + 1];
 *
 *     aslapush_cache_make(words);                                                         // once
 *
 *     number = aslapush_cache_lookup(words, units, 40000, fingerprint, program, program_len, records, records_len, text, text_len, 0, answer);
 *     if (number == 0 && answer[1] == ASLAPUSH_CACHE_MISSED)                              // storing looks first too: alone it does the same
 *         number = aslapush_cache_store(words, units, 40000, fingerprint, program, program_len, records, records_len, text, text_len, 0, answer);
 *     if (number == 0) {                                                                  // the line: answer[3] units from units + answer[2] on
 *         memcpy(line, units + answer[2], 2 * answer[3]);                                 // a copy: by its public text CreateProcessW may change it
 *         line[answer[3]] = 0;
 *     } else if (number == ASLAPUSH_PLACES || number == ASLAPUSH_ROOM) {                  // full: clear and store again, or build without the store
 *         number = aslapush_make_command_line(program, program_len, records, records_len, text, text_len, 0, line, ASLAPUSH_LINE_UNITS, answer);
 *         line[answer[2]] = 0;
 *     }
 */
enum {
    ASLAPUSH_CACHE_ENTRIES = 64, /* the most entries of a store */
    ASLAPUSH_CACHE_WORDS = 481   /* words of an index, for every store */
};

/* How a lookup or a storing ended. */
enum {
    ASLAPUSH_CACHE_MISSED = 0, /* a lookup: no entry has that fingerprint and that key */
    ASLAPUSH_CACHE_HIT = 1,    /* a lookup: here is its line */
    ASLAPUSH_CACHE_HELD = 2,   /* a storing: it was held before, and nothing is changed; here is its line */
    ASLAPUSH_CACHE_STORED = 3  /* a storing: it is held now; here is its line */
};

/* Makes a store that has no entries, whatever the index held. Never refuses. */
void aslapush_cache_make(uint64_t index[ASLAPUSH_CACHE_WORDS]);

/* Removes all entries: the only removal there is. Never refuses. */
void aslapush_cache_clear(uint64_t index[ASLAPUSH_CACHE_WORDS]);

/* Looks for the line of a key under a fingerprint. Program, records, text and flag are as for aslapush_make_command_line.
 * Refuses 1 over all records, and nothing else: what the builder would refuse otherwise is merely not held. */
uint32_t aslapush_cache_lookup(const uint64_t index[ASLAPUSH_CACHE_WORDS], const uint16_t *units, size_t units_len, uint64_t fingerprint,
                               const uint16_t *program, size_t program_len, const uint32_t *records, size_t records_len, const uint16_t *text,
                               size_t text_len, uint32_t force_quotes, uint64_t answer[5]);

/* Builds the line of a key and stores it under a fingerprint, unless it is held. An entry uses program_len, the units of all argument texts and of the line,
 * and 2 for each argument.
 * Refuses 1, 5 and 2 as aslapush_make_command_line; then, unless it is held, 3 where all entries are used; 4 where the entry uses more units than are left.
 *     a new store of 26 units, program exe, records 0 0 1, text `a`      gives ASLAPUSH_CACHE_STORED, start 6, 7 units: "exe" a. 13 units are left */
uint32_t aslapush_cache_store(uint64_t index[ASLAPUSH_CACHE_WORDS], uint16_t *units, size_t units_len, uint64_t fingerprint, const uint16_t *program,
                              size_t program_len, const uint32_t *records, size_t records_len, const uint16_t *text, size_t text_len, uint32_t force_quotes,
                              uint64_t answer[5]);

#ifdef __cplusplus
}
#endif
#endif
