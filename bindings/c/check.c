/* Checks include/aslapush.h against the archive: every example that the header gives, every refusal, room at its bounds, each limit, and a store of lines. */
#include "aslapush.h"
#include <stdio.h>
#include <string.h>

static int failed, passed;

/* What is lent. A builder is lent `out` up to a number of units, and whatever is behind must keep its content. */
static uint16_t name[ASLAPUSH_LINE_UNITS], text[64], out[ASLAPUSH_BLOCK_UNITS + 1], kept[ASLAPUSH_BLOCK_UNITS + 1];
static uint64_t a[4];

/* A block to read, and the table that its reader is lent up to a number of numbers. */
static uint16_t dump[ASLAPUSH_BLOCK_UNITS + 1];
static uint32_t listing[ASLAPUSH_ENTRY_NUMBERS + 1], listing_kept[ASLAPUSH_ENTRY_NUMBERS + 1];

static void expect(int holds, const char *what) {
    if (holds) {
        passed++;
    } else {
        failed++;
        printf("FAILED: %s\n", what);
    }
}

/* The units of an ASCII text. */
static size_t units(const char *ascii, uint16_t *to) {
    size_t n = strlen(ascii);
    for (size_t i = 0; i < n; i++)
        to[i] = (unsigned char)ascii[i];
    return n;
}

/* One unit so many times. */
static size_t repeated(uint16_t unit, size_t n, uint16_t *to) {
    for (size_t i = 0; i < n; i++)
        to[i] = unit;
    return n;
}

/* Units are those of an ASCII text. */
static int same(const uint16_t *from, size_t len, const char *ascii) {
    if (len != strlen(ascii))
        return 0;
    for (size_t i = 0; i < len; i++)
        if (from[i] != (unsigned char)ascii[i])
            return 0;
    return 1;
}

/* The output before a call: what no result has, so that every change is seen. */
static void ready(void) {
    memset(a, 0xee, sizeof a);
    memset(out, 0xdd, sizeof out);
    memcpy(kept, out, sizeof out);
}

/* The four numbers of an answer, and nothing changed behind the units written: after a refusal nothing at all. */
static int told(uint64_t place, uint64_t arguments, uint64_t count) {
    int said = a[0] == place && a[1] == arguments && a[2] == count && a[3] == 0;
    return said && memcmp(out + count, kept + count, sizeof out - 2 * count) == 0;
}

static uint32_t line(size_t program_len, const uint32_t *records, size_t numbers, size_t text_len, uint32_t force, size_t room) {
    ready();
    return aslapush_make_command_line(name, program_len, records, numbers, text, text_len, force, out, room, a);
}

static uint32_t batch(size_t script_len, const uint32_t *records, size_t numbers, size_t text_len, uint32_t force, size_t room) {
    ready();
    return aslapush_make_bat_command_line(name, script_len, records, numbers, text, text_len, force, out, room, a);
}

static uint32_t block(const uint32_t *records, size_t numbers, size_t text_len, size_t room) {
    ready();
    return aslapush_make_envp(records, numbers, text, text_len, out, room, a);
}

static uint32_t entries(size_t block_len, size_t numbers) {
    ready();
    memset(listing, 0xdd, sizeof listing);
    memcpy(listing_kept, listing, sizeof listing);
    return aslapush_read_envp(dump, block_len, listing, numbers, a);
}

/* The answer of the block reader, and nothing changed behind the numbers stored: after a refusal nothing at all. */
static int listed(uint64_t place, uint64_t count, uint64_t used) {
    int said = a[0] == place && a[1] == count && a[2] == used && a[3] == 0;
    return said && memcmp(listing + 4 * count, listing_kept + 4 * count, sizeof listing - 16 * count) == 0;
}

/* The block that the filled front of the table gives, as records over what was read: the units used. */
static int rebuilt(size_t block_len) {
    size_t used = a[2], numbers = 4 * a[1];
    ready();
    uint32_t number = aslapush_make_envp(listing, numbers, dump, block_len, out, used, a);
    return number == 0 && told(0, 0, used) && memcmp(out, dump, 2 * used) == 0;
}

/* A block as a text whose NULs are written as `/`, and how many units it has. */
static size_t dumped(const char *ascii) {
    size_t n = units(ascii, dump);
    for (size_t i = 0; i < n; i++)
        if (dump[i] == '/')
            dump[i] = 0;
    return n;
}

/* A store, and what it held before a call. Its units are lent up to a number, and those behind must keep their content. */
enum { ALL = 600 };
static uint64_t words[ASLAPUSH_CACHE_WORDS], words_kept[ASLAPUSH_CACHE_WORDS], c[5];
static uint16_t shelf[ALL + 8], shelf_kept[ALL + 8];

/* The store before a call. */
static void ready_store(void) {
    memset(c, 0xee, sizeof c);
    memcpy(words_kept, words, sizeof words);
    memcpy(shelf_kept, shelf, sizeof shelf);
}

/* A key whose program and text are in `name` and `text`. */
struct key {
    size_t program_len;
    const uint32_t *records;
    size_t numbers;
    size_t text_len;
    uint32_t force;
};

static uint32_t look(uint64_t fingerprint, struct key k, size_t lent) {
    ready_store();
    return aslapush_cache_lookup(words, shelf, lent, fingerprint, name, k.program_len, k.records, k.numbers, text, k.text_len, k.force, c);
}

static uint32_t store(uint64_t fingerprint, struct key k, size_t lent) {
    ready_store();
    return aslapush_cache_store(words, shelf, lent, fingerprint, name, k.program_len, k.records, k.numbers, text, k.text_len, k.force, c);
}

/* The five numbers of an answer. */
static int served(uint64_t place, uint64_t state, uint64_t start, uint64_t count) {
    return c[0] == place && c[1] == state && c[2] == start && c[3] == count && c[4] == 0;
}

/* The store is as it was before the call. */
static int untouched(void) {
    return memcmp(words, words_kept, sizeof words) == 0 && memcmp(shelf, shelf_kept, sizeof shelf) == 0;
}

/* Nothing is changed in front of a part of the store's units, and nothing behind it. */
static int around(size_t from, size_t to) {
    return memcmp(shelf, shelf_kept, 2 * from) == 0 && memcmp(shelf + to, shelf_kept + to, sizeof shelf - 2 * to) == 0;
}

static uint32_t status(uint32_t recorded, size_t room) {
    ready();
    return aslapush_status_text(recorded, out, room, a);
}

static void reading(void) {
    uint32_t spans[8], table[8] = {0, 3, 3, 3, 6, 1, 0xffffffff, 0xffffffff}, before[8];
    uint64_t part[2];
    size_t n = units("exe \"a b\" c", text);
    memset(spans, 0xff, sizeof spans);
    memcpy(before, spans, sizeof spans);
    ready();
    expect(aslapush_parse_lp_cmd_line(text, n, name, 0, out, 64, spans, 5, a) == ASLAPUSH_PLACES && told(0, 0, 0), "too few places");
    expect(aslapush_parse_lp_cmd_line(text, n, name, 0, out, 6, spans, 6, a) == ASLAPUSH_ROOM && told(0, 0, 0), "too few units");
    expect(memcmp(spans, before, sizeof spans) == 0, "a refusal leaves the spans");
    expect(aslapush_parse_lp_cmd_line(text, n, name, 0, out, 7, spans, 8, a) == 0 && told(0, 3, 7), "reading answers");
    expect(same(out, 7, "exea bc"), "reading writes the texts");
    expect(memcmp(spans, table, sizeof table) == 0, "reading writes the spans and keeps the rest");
    aslapush_argument(out, 64, spans, 8, 1, part);
    expect(part[0] == 3 && part[1] == 3, "argument 1");
    aslapush_argument(out, 64, spans, 8, 3, part);
    expect(part[0] == 0 && part[1] == 0, "a span reaching past the text");
    aslapush_argument(out, 64, spans, 8, 4, part);
    expect(part[0] == 0 && part[1] == 0, "an index not in the table");
    n = units(" a a a", text);
    ready();
    expect(aslapush_parse_lp_cmd_line(text, n, name, 0, out, n, spans, 2 * (n / 2 + 1), a) == 0 && told(0, 4, 3), "as many arguments as 6 units can have");
    ready();
    expect(aslapush_parse_lp_cmd_line(text, 0, text, 3, out, 3, spans, 2, a) == 0 && told(0, 1, 3) && same(out, 3, " a "), "the executable name");
    n = repeated('a', ASLAPUSH_READ_UNITS + 1, dump);
    ready();
    expect(aslapush_parse_lp_cmd_line(dump, n - 1, name, 0, out, n, spans, 2, a) == 0 && told(0, 1, n - 1), "the longest line that is read");
    ready();
    expect(aslapush_parse_lp_cmd_line(dump, n, name, 0, out, n, spans, 2, a) == ASLAPUSH_LENGTH && told(0, 0, 0), "a line too long to be read");
}

static void lines(void) {
    uint32_t records[6] = {0, 0, 3, 0, 3, 0}, quotes[3] = {0, 0, 4}, odd[3] = {2, 0, 0}, past[3] = {1, 1, 3};
    size_t p = units("exe", name), t = units("a b", text);
    expect(line(p, records, 6, t, 0, 64) == 0 && told(0, 0, 14) && same(out, 14, "\"exe\" \"a b\" \"\""), "a line");
    expect(line(p, records, 5, t, 0, 64) == ASLAPUSH_RECORD && told(2, 0, 0), "a cut record");
    expect(line(p, odd, 3, t, 0, 64) == ASLAPUSH_RECORD && told(1, 0, 0), "a kind that is none");
    expect(line(p, past, 3, t, 0, 64) == ASLAPUSH_RECORD && told(1, 0, 0), "a part that reaches past the text");
    text[1] = 0;
    expect(line(p, records, 6, t, 0, 64) == ASLAPUSH_NUL && told(1, 0, 0), "a NUL");
    name[1] = 0;
    expect(line(p, records, 6, t, 0, 64) == ASLAPUSH_NUL && told(0, 0, 0), "a NUL in the program");
    p = units("exe", name);
    t = units("xyz", text);
    expect(line(p, records, 3, t, 5, 64) == 0 && same(out, a[2], "\"exe\" \"xyz\""), "quotes forced by 5");
    t = repeated('"', 4, text);
    expect(line(p, quotes, 3, t, 1, p + 2 + 2 * 4 + 3) == 0 && told(0, 0, p + 2 + 2 * 4 + 3), "the bound of a line, met");
    expect(line(p, quotes, 3, t, 1, p + 2 + 2 * 4 + 2) == ASLAPUSH_ROOM && told(0, 0, 0), "a unit of room less");
    p = repeated('a', ASLAPUSH_LINE_UNITS - 2, name);
    expect(line(p, records, 0, 0, 0, ASLAPUSH_LINE_UNITS) == 0 && told(0, 0, ASLAPUSH_LINE_UNITS), "the longest line");
    expect(a[2] + 1 == 32767, "the longest line and its NUL are what CreateProcessW takes");
    expect(line(p, records, 0, 0, 0, ASLAPUSH_LINE_UNITS - 1) == ASLAPUSH_ROOM && told(0, 0, 0), "a unit of room less for the longest line");
    p = repeated('a', ASLAPUSH_LINE_UNITS - 1, name);
    expect(line(p, records, 0, 0, 0, ASLAPUSH_BLOCK_UNITS) == ASLAPUSH_LENGTH && told(0, 0, 0), "a line too long");
}

static void batches(void) {
    uint32_t records[3] = {0, 0, 3};
    size_t p = units("a.bat", name), t = units("x y", text);
    expect(batch(p, records, 3, t, 0, 64) == 0 && told(0, 0, 42), "a batch line is built");
    expect(same(out, 42, "cmd.exe /e:ON /v:OFF /d /c \"\"a.bat\" \"x y\"\""), "the batch line");
    text[2] = 13;
    expect(batch(p, records, 3, t, 0, 64) == ASLAPUSH_LINE_BREAK && told(1, 0, 0), "CR");
    name[4] = '\\';
    expect(batch(p, records, 3, t, 0, 64) == ASLAPUSH_SCRIPT && told(0, 0, 0), "a script whose last unit is a backslash");
    name[p] = 0;
    expect(batch(p + 1, records, 0, 0, 0, 64) == 0 && told(0, 0, p + 31), "a script whose last unit as lent is a NUL");
    name[0] = '"';
    expect(batch(p + 1, records, 0, 0, 0, 64) == ASLAPUSH_SCRIPT && told(0, 0, 0), "a script with a quote mark");
    p = units("a.bat", name);
    t = repeated('%', 3, text);
    expect(batch(p, records, 3, t, 0, p + 31 + 8 * 3 + 3) == 0 && told(0, 0, p + 31 + 8 * 3 + 3), "the bound of a batch line, met");
    expect(batch(p, records, 3, t, 0, p + 31 + 8 * 3 + 2) == ASLAPUSH_ROOM && told(0, 0, 0), "a unit of room less");
    p = repeated('a', ASLAPUSH_BATCH_UNITS - 31, name);
    expect(batch(p, records, 0, 0, 0, ASLAPUSH_BATCH_UNITS) == 0 && told(0, 0, ASLAPUSH_BATCH_UNITS), "the longest batch line");
    p = repeated('a', ASLAPUSH_BATCH_UNITS - 30, name);
    expect(batch(p, records, 0, 0, 0, ASLAPUSH_BLOCK_UNITS) == ASLAPUSH_LENGTH && told(0, 0, 0), "a batch line too long");
}

static void blocks(void) {
    uint32_t entry[4] = {0, 1, 1, 1}, split[4] = {0, 1, 2, 3}, joined[4] = {0, 3, 4, 1};
    size_t t = units("A1", text);
    expect(block(entry, 4, t, 5) == 0 && told(0, 0, 5) && memcmp(out, (uint16_t[]){65, 61, 49, 0, 0}, 10) == 0, "a block, in its room");
    expect(block(entry, 4, t, 4) == ASLAPUSH_ROOM && told(0, 0, 0), "a unit of room less");
    expect(block(entry, 0, t, 2) == 0 && told(0, 0, 2) && out[0] == 0 && out[1] == 0, "a block of no entries");
    text[1] = 0;
    expect(block(entry, 4, t, 64) == ASLAPUSH_NUL && told(1, 0, 0), "a NUL in a value");
    t = units("a=b=c", text);
    expect(block(split, 4, t, 64) == 0 && told(0, 0, 7) && same(out, 5, "a=b=c"), "key a, value b=c");
    expect(block(joined, 4, t, 64) == 0 && told(0, 0, 7) && same(out, 5, "a=b=c"), "key a=b, value c");
}

static void block_reading(void) {
    size_t n = dumped("A=1/=C:=x//...");
    expect(entries(n, 8) == 0 && listed(0, 2, 11), "a block is read, in its table");
    expect(memcmp(listing, (uint32_t[]){0, 1, 2, 1, 4, 3, 8, 1}, 32) == 0, "the spans of its keys and values");
    expect(rebuilt(n), "its table, lent on as records, gives the units used");
    expect(entries(n, 7) == ASLAPUSH_PLACES && listed(0, 0, 0), "too few places: a number less");
    expect(entries(n, 0) == ASLAPUSH_PLACES && listed(0, 0, 0), "no places");
    expect(entries(10, 8) == ASLAPUSH_ENTRY && listed(3, 0, 0), "no final NUL: the entry after the last");
    expect(entries(9, 8) == ASLAPUSH_ENTRY && listed(2, 0, 0), "an entry that runs into the end");
    expect(entries(0, 8) == ASLAPUSH_ENTRY && listed(1, 0, 0), "nothing at all");
    n = dumped("A=1/B//");
    expect(entries(n, 0) == ASLAPUSH_ENTRY && listed(2, 0, 0), "an entry without `=`, before too few places");
    n = dumped("=C:/");
    expect(entries(n, 8) == ASLAPUSH_ENTRY && listed(1, 0, 0), "an entry whose only `=` is its first unit");
    n = dumped("//A=1/");
    expect(entries(n, 0) == 0 && listed(0, 0, 2) && rebuilt(n), "a block of no entries");
    expect(entries(1, 8) == ASLAPUSH_ENTRY && listed(1, 0, 0), "one NUL");
    n = dumped("/A=1//");
    expect(entries(n, 8) == ASLAPUSH_ENTRY && listed(1, 0, 0), "one NUL in front");
    for (size_t i = 0; i < ASLAPUSH_BLOCK_UNITS + 1; i++)
        dump[i] = (uint16_t[]){'A', '=', 0}[i % 3];
    dump[65532] = 0;
    n = ASLAPUSH_BLOCK_UNITS;
    expect(entries(n, ASLAPUSH_ENTRY_NUMBERS) == 0 && listed(0, 21844, 65533) && rebuilt(n), "as many entries as a block can have");
    expect(entries(n, ASLAPUSH_ENTRY_NUMBERS - 1) == ASLAPUSH_PLACES && listed(0, 0, 0), "a number less than they need");
    expect(entries(n + 1, ASLAPUSH_ENTRY_NUMBERS) == ASLAPUSH_LENGTH && listed(0, 0, 0), "a unit too many");
    dump[0] = 0;
    expect(entries(n + 1, 0) == ASLAPUSH_LENGTH && listed(0, 0, 0), "a unit too many, before a bad entry");
}

static void caching(void) {
    uint32_t first[3] = {0, 0, 1}, raw[3] = {1, 0, 1}, again[3] = {0, 2, 1}, other[3] = {0, 1, 1};
    size_t p = units("exe", name), t = units("aba", text), lent = 26;
    struct key a_key = {p, first, 3, t, 0}, a_raw = {p, raw, 3, t, 0}, a_forced = {p, first, 3, t, 7};
    struct key a_again = {p, again, 3, t, 0}, b_key = {p, other, 3, t, 0};
    memset(words, 0xee, sizeof words);
    memset(shelf, 0xdd, sizeof shelf);
    aslapush_cache_make(words);
    expect(look(5, a_key, lent) == 0 && served(0, ASLAPUSH_CACHE_MISSED, 0, 0) && untouched(), "a store that is made holds nothing");
    expect(store(5, a_key, lent) == 0 && served(0, ASLAPUSH_CACHE_STORED, 6, 7) && around(0, 13), "a line is stored");
    expect(same(shelf + c[2], c[3], "\"exe\" a"), "its units");
    expect(look(5, a_key, lent) == 0 && served(0, ASLAPUSH_CACHE_HIT, 6, 7) && untouched(), "a lookup hits it");
    expect(store(5, a_key, lent) == 0 && served(0, ASLAPUSH_CACHE_HELD, 6, 7) && untouched(), "stored again it is held, and nothing is changed");
    expect(look(5, a_again, lent) == 0 && served(0, ASLAPUSH_CACHE_HIT, 6, 7), "an equal text at another place is the same key");
    expect(look(6, a_key, lent) == 0 && served(0, ASLAPUSH_CACHE_MISSED, 0, 0), "another fingerprint");
    expect(look(5, a_raw, lent) == 0 && served(0, ASLAPUSH_CACHE_MISSED, 0, 0), "another kind");
    expect(look(5, a_forced, lent) == 0 && served(0, ASLAPUSH_CACHE_MISSED, 0, 0), "another flag");
    expect(look(5, b_key, lent) == 0 && served(0, ASLAPUSH_CACHE_MISSED, 0, 0), "another text under the same fingerprint");
    expect(store(5, b_key, lent) == 0 && served(0, ASLAPUSH_CACHE_STORED, 19, 7) && around(13, lent), "just the units that are left");
    expect(look(5, a_key, lent) == 0 && served(0, ASLAPUSH_CACHE_HIT, 6, 7), "two keys under one fingerprint: the first");
    expect(look(5, b_key, lent) == 0 && served(0, ASLAPUSH_CACHE_HIT, 19, 7) && same(shelf + c[2], c[3], "\"exe\" b"), "and the second");
    aslapush_cache_clear(words);
    expect(look(5, a_key, lent) == 0 && served(0, ASLAPUSH_CACHE_MISSED, 0, 0), "a store that is cleared holds nothing");
    expect(store(5, a_forced, lent) == 0 && served(0, ASLAPUSH_CACHE_STORED, 6, 9), "and has all its units again");
    expect(look(5, a_forced, lent) == 0 && same(shelf + c[2], c[3], "\"exe\" \"a\""), "quotes forced by 7");
    a_forced.force = 1;
    expect(look(5, a_forced, lent) == 0 && served(0, ASLAPUSH_CACHE_HIT, 6, 9), "are those forced by 1");
    expect(store(5, b_key, lent) == ASLAPUSH_ROOM && served(0, 0, 0, 0) && untouched(), "two units less than the entry uses");
}

static void caching_refusals(void) {
    uint32_t records[6] = {0, 0, 1, 0, 1, 1}, odd[6] = {0, 0, 1, 2, 0, 0};
    size_t p = units("exe", name), t = units("ab", text);
    struct key k = {p, records, 6, t, 0}, cut = {p, records, 5, t, 0}, none = {p, odd, 6, t, 0}, bare = {p, records, 0, 0, 0};
    aslapush_cache_make(words);
    expect(look(1, cut, ALL) == ASLAPUSH_RECORD && served(2, 0, 0, 0) && untouched(), "looking up: a cut record");
    expect(store(1, none, ALL) == ASLAPUSH_RECORD && served(2, 0, 0, 0) && untouched(), "storing: a kind that is none");
    text[1] = 0;
    expect(store(1, k, ALL) == ASLAPUSH_NUL && served(2, 0, 0, 0) && untouched(), "storing: a NUL");
    expect(look(1, k, ALL) == 0 && served(0, ASLAPUSH_CACHE_MISSED, 0, 0), "looking up: it is merely not held");
    name[1] = 0;
    expect(store(1, k, ALL) == ASLAPUSH_NUL && served(0, 0, 0, 0) && untouched(), "storing: a NUL in the program");
    bare.program_len = repeated('a', ASLAPUSH_LINE_UNITS - 1, name);
    expect(store(1, bare, ALL) == ASLAPUSH_LENGTH && served(0, 0, 0, 0) && untouched(), "storing: a line too long, before its room");
    expect(look(1, bare, ALL) == 0 && served(0, ASLAPUSH_CACHE_MISSED, 0, 0), "looking up: it is merely not held");
}

/* As many entries as a store holds, of one key under fingerprints from 0 on: each uses 8 units. */
static void caching_full(void) {
    uint32_t records[1] = {0};
    struct key bare = {units("exe", name), records, 0, 0, 0}, cut = {3, records, 1, 0, 0};
    int stored = 1, found = 1;
    aslapush_cache_make(words);
    for (uint64_t i = 0; i < ASLAPUSH_CACHE_ENTRIES; i++) {
        stored &= store(i, bare, ALL) == 0 && served(0, ASLAPUSH_CACHE_STORED, 8 * i + 3, 5);
        found &= look(i, bare, ALL) == 0 && served(0, ASLAPUSH_CACHE_HIT, 8 * i + 3, 5);
    }
    expect(stored && found, "as many entries as a store holds");
    expect(look(0, bare, ALL) == 0 && served(0, ASLAPUSH_CACHE_HIT, 3, 5) && same(shelf + 3, 5, "\"exe\""), "the first is where it was");
    expect(store(64, bare, 8 * 64) == ASLAPUSH_PLACES && served(0, 0, 0, 0) && untouched(), "all are used, before no units are left");
    expect(store(64, cut, ALL) == ASLAPUSH_RECORD && served(1, 0, 0, 0) && untouched(), "a refusal of the builder, before all are used");
    expect(store(63, bare, ALL) == 0 && served(0, ASLAPUSH_CACHE_HELD, 8 * 63 + 3, 5) && untouched(), "what is held stays held");
    aslapush_cache_make(words);
    expect(look(0, bare, ALL) == 0 && served(0, ASLAPUSH_CACHE_MISSED, 0, 0), "a store made anew holds nothing");
}

/* A lookup and a storing in a store whose words these calls did not write: nothing outside is changed, and a line lies within the units. */
static int stays_within(uint64_t even, uint64_t odd, struct key k, size_t lent) {
    for (size_t i = 0; i < ASLAPUSH_CACHE_WORDS; i++)
        words[i] = i % 2 ? odd : even;
    int within = (look(even, k, lent) != 0 || c[2] + c[3] <= lent) && untouched();
    return within && (store(odd, k, lent) != 0 || c[2] + c[3] <= lent) && around(0, lent);
}

static void caching_elsewhere(void) {
    uint32_t records[3] = {0, 0, 1};
    uint64_t contents[6] = {0, 1, 63, 99, 101, ~(uint64_t)0};
    struct key k = {units("exe", name), records, 3, units("a", text), 0};
    int within = 1;
    for (size_t i = 0; i < 36; i++)
        within &= stays_within(contents[i / 6], contents[i % 6], k, 100);
    expect(within, "a store of any content: a call stays within it");
}

/* The header's example: a line and its NUL, from the store or, where that is full, without it. */
static size_t launched(uint64_t fingerprint, struct key k, size_t lent, uint16_t *to) {
    uint32_t number = look(fingerprint, k, lent);
    if (number == 0 && c[1] == ASLAPUSH_CACHE_MISSED)
        number = store(fingerprint, k, lent);
    if (number == 0) {
        memcpy(to, shelf + c[2], 2 * c[3]);
        to[c[3]] = 0;
        return c[3];
    }
    if (number == ASLAPUSH_PLACES || number == ASLAPUSH_ROOM)
        number = aslapush_make_command_line(name, k.program_len, k.records, k.numbers, text, k.text_len, k.force, to, ASLAPUSH_LINE_UNITS, a);
    to[a[2]] = 0;
    return number == 0 ? a[2] : 0;
}

static void caching_example(void) {
    uint32_t records[3] = {0, 0, 3};
    struct key k = {units("exe", name), records, 3, units("a b", text), 0};
    aslapush_cache_make(words);
    expect(launched(1, k, 19, out) == 11 && same(out, 11, "\"exe\" \"a b\"") && out[11] == 0 && c[1] == ASLAPUSH_CACHE_STORED, "stored and copied");
    memset(out, 0xdd, sizeof out);
    expect(launched(1, k, 19, out) == 11 && same(out, 11, "\"exe\" \"a b\"") && out[11] == 0 && c[1] == ASLAPUSH_CACHE_HIT, "hit and copied");
    memset(out, 0xdd, sizeof out);
    expect(launched(2, k, 19, out) == 11 && same(out, 11, "\"exe\" \"a b\"") && out[11] == 0, "full, and built without the store");
}

static void statuses(void) {
    expect(status(3221225477u, ASLAPUSH_STATUS_UNITS) == 0 && told(0, 0, 21) && same(out, 21, "exit code: 0xc0000005"), "a status");
    expect(status(0, 11) == ASLAPUSH_ROOM && told(0, 0, 0), "a status without room");
    expect(aslapush_code(3221225477u) == -1073741819 && aslapush_code(2147483647u) == 2147483647, "codes");
}

int main(void) {
    reading();
    lines();
    batches();
    blocks();
    block_reading();
    caching();
    caching_refusals();
    caching_full();
    caching_elsewhere();
    caching_example();
    statuses();
    size_t p = units("a.CMD", name);
    expect(aslapush_has_bat_extension(name, p) == 1 && aslapush_has_bat_extension(name, p - 1) == 0, "suffixes");
    expect(aslapush_class_of(34) == 4 && aslapush_class_of(0) == 1 && aslapush_class_of(65535) == 0, "classes");
    printf("c: %d passed, %d failed\n", passed, failed);
    return failed != 0;
}
