/* Calls the archive from C on a task file and compares with its script: calls TASK SCRIPT. Writes `N passed, M failed`. */
#include "jiggerreef.h"

#include <stdio.h>
#include <string.h>

enum { MOST = 65536, FILLED = 0xa5, PLACES = 12 };

static int passed, failed;

static void expect(int holds, const char *what) {
    if (holds) {
        passed += 1;
    } else {
        failed += 1;
        printf("failed: %s\n", what);
    }
}

static size_t contents(const char *path, uint8_t *bytes) {
    FILE *file = fopen(path, "rb");
    size_t n = file ? fread(bytes, 1, MOST, file) : 0;
    if (file) {
        fclose(file);
    }
    return n;
}

/* whether all bytes from `from` to `to` are as they were filled */
static int unchanged(const uint8_t *buf, size_t from, size_t to) {
    for (size_t i = from; i < to; i++) {
        if (buf[i] != FILLED) {
            return 0;
        }
    }
    return 1;
}

static void surveyed(const uint8_t *file, size_t n, size_t script_length) {
    size_t sizes[4] = {0, 0, 0, 0};
    expect(jiggerreef_survey(file, n, JIGGERREEF_Z3, sizes) == 0, "survey accepts the task");
    expect(sizes[0] == 7 && sizes[1] == 2 && sizes[2] == script_length && sizes[3] == 83, "survey's four numbers");
}

/* the parts one behind the other are the script, each in a buffer of just its length */
static void joined(const uint8_t *file, size_t n, const uint8_t *script, size_t m) {
    static uint8_t buf[MOST];
    size_t at = 0, length = 0;
    for (size_t i = 0; i < 7; i++) {
        memset(buf, FILLED, MOST);
        expect(jiggerreef_part(file, n, buf, MOST, JIGGERREEF_Z3, i, &length) == 0, "a part is written");
        expect(at + length <= m && memcmp(buf, script + at, length) == 0, "a part is its piece of the script");
        expect(unchanged(buf, length, MOST), "bytes behind a part are unchanged");
        at += length;
        memset(buf, FILLED, MOST);
        expect(jiggerreef_part(file, n, buf, length - 1, JIGGERREEF_Z3, i, &length) == 9, "a buffer one byte short is refused with 9");
        expect(unchanged(buf, 0, MOST), "a refused part changes no byte");
    }
    expect(at == m, "the parts joined are the script");
    expect(jiggerreef_part(file, n, buf, MOST, JIGGERREEF_Z3, 7, &length) == 8, "part 7 of 7 is refused with 8");
    expect(jiggerreef_part(file, n, buf, MOST, JIGGERREEF_Z3, SIZE_MAX, &length) == 8, "the largest index is refused with 8");
}

static void written(const uint8_t *file, size_t n, const uint8_t *script, size_t m) {
    static uint8_t buf[MOST];
    size_t length = 12345;
    memset(buf, FILLED, MOST);
    expect(jiggerreef_script(file, n, buf, m - 1, JIGGERREEF_Z3, &length) == 9, "a buffer one byte short is refused with 9");
    expect(unchanged(buf, 0, MOST) && length == 12345, "a refusal changes no byte and stores no length");
    expect(jiggerreef_script(file, n, buf, m, JIGGERREEF_Z3, &length) == 0 && length == m, "a buffer of just the length is enough");
    expect(memcmp(buf, script, m) == 0 && unchanged(buf, m, MOST), "the script, and bytes behind it unchanged");
}

/* what is lent to a run */
struct lent {
    uint8_t buf[512];
    uint32_t lengths[PLACES];
    size_t length;
};

/* what is asked for: parts, and the room that is named */
struct run {
    size_t first, count, buf_len, places;
};

/* as it is before a run */
static struct lent filled(void) {
    struct lent lent;
    memset(&lent, FILLED, sizeof lent);
    return lent;
}

/* the run is answered with this number and leaves what is expected, all behind text and lengths included */
static void ran(const uint8_t *file, size_t n, uint8_t edition, struct run run, uint8_t number, struct lent expected, const char *what) {
    struct lent lent = filled();
    uint8_t answer = jiggerreef_run(file, n, lent.buf, run.buf_len, lent.lengths, run.places, edition, run.first, run.count, &lent.length);
    expect(answer == number, what);
    expect(memcmp(lent.buf, expected.buf, sizeof lent.buf) == 0, "the buffer behind a run");
    expect(memcmp(lent.lengths, expected.lengths, sizeof lent.lengths) == 0, "the table behind a run");
    expect(lent.length == expected.length, "the length that a run stores");
}

/* a refused run changes no byte, no place and no length */
static void run_refused(uint8_t number, const uint8_t *file, size_t n, struct run run, const char *what) {
    ran(file, n, JIGGERREEF_Z3, run, number, filled(), what);
}

/* a run leaves what single calls one after another leave, each into the buffer behind the last written byte with its length put down */
static void run_and_singles(const uint8_t *file, size_t n, size_t first, size_t count) {
    struct lent singles = filled();
    size_t at = 0, length = 0, room = sizeof singles.buf;
    for (size_t i = 0; i < count; i++) {
        expect(jiggerreef_part(file, n, singles.buf + at, room - at, JIGGERREEF_Z3, first + i, &length) == 0, "a part is written");
        singles.lengths[i] = (uint32_t)length;
        at += length;
    }
    singles.length = at;
    ran(file, n, JIGGERREEF_Z3, (struct run){first, count, room, PLACES}, 0, singles, "a run is written");
    ran(file, n, JIGGERREEF_Z3, (struct run){first, count, at, count}, 0, singles, "a run is written where there is just room");
    if (count > 0) {
        run_refused(9, file, n, (struct run){first, count, at - 1, PLACES}, "a buffer one byte short is refused with 9");
        run_refused(9, file, n, (struct run){first, count, room, count - 1}, "a table one place short is refused with 9");
        run_refused(9, file, n, (struct run){first, count, at - 1, count - 1}, "so are both");
    }
}

/* every run of the 7 parts, those of zero parts up to number 7 included, and runs that pass the last part */
static void runs(const uint8_t *file, size_t n, const uint8_t *script, size_t m) {
    static const size_t half = SIZE_MAX / 2 + 1, past[][2] = {{0, 8}, {3, 5}, {7, 1}, {8, 0}, {8, 1}, {0, SIZE_MAX}, {2, SIZE_MAX}, {SIZE_MAX, 0},
        {SIZE_MAX, 1}, {SIZE_MAX, 2}, {SIZE_MAX, SIZE_MAX}, {half, half}, {1, ((size_t)1 << 32) + 2}, {((size_t)1 << 32) + 1, 2}};
    for (size_t first = 0; first <= 7; first++) {
        for (size_t count = 0; first + count <= 7; count++) {
            run_and_singles(file, n, first, count);
        }
    }
    for (size_t i = 0; i < sizeof past / sizeof *past; i++) {
        run_refused(8, file, n, (struct run){past[i][0], past[i][1], m, PLACES}, "a run past the last part is refused with 8");
        run_refused(8, file, n, (struct run){past[i][0], past[i][1], 0, 0}, "so it is before a short buffer and a short table");
    }
    struct lent whole = filled();
    expect(jiggerreef_run(file, n, whole.buf, m, whole.lengths, 7, JIGGERREEF_Z3, 0, 7, &whole.length) == 0, "all parts are one run");
    expect(whole.length == m && memcmp(whole.buf, script, m) == 0, "which is the script");
}

/* no task file: every call answers 1 and stores nothing */
static void refused(void) {
    uint8_t file[1] = {0}, buf[1] = {FILLED};
    size_t sizes[4] = {1, 2, 3, 4}, length = 5;
    expect(jiggerreef_survey(file, 0, JIGGERREEF_Z3, sizes) == 1 && jiggerreef_survey(file, 1, JIGGERREEF_CVC5, sizes) == 1, "survey refuses with 1");
    expect(sizes[0] == 1 && sizes[1] == 2 && sizes[2] == 3 && sizes[3] == 4, "a refused survey stores nothing");
    expect(jiggerreef_part(file, 1, buf, 1, JIGGERREEF_CVC5, 0, &length) == 1, "part refuses with 1");
    expect(jiggerreef_script(file, 1, buf, 0, JIGGERREEF_CVC5, &length) == 1, "script refuses with 1, before a short buffer");
    expect(buf[0] == FILLED && length == 5, "a refusal changes nothing");
    run_refused(1, file, 1, (struct run){0, 0, 1, 1}, "run refuses with 1");
    run_refused(1, file, 1, (struct run){SIZE_MAX, SIZE_MAX, 1, 1}, "so it does a run past the last part");
    run_refused(1, file, 0, (struct run){0, 1, 0, 0}, "and a run without room");
}

/* the bytes of some KVars and of a constraint behind them, a file around them, and the number that every call answers to it */
static void refused_behind(uint8_t number, size_t kvars, const uint8_t *sections, size_t n) {
    uint8_t file[64] = {0}, buf[1] = {FILLED};
    size_t sizes[4], length;
    memcpy(file, sections, n);
    file[n + 20] = (uint8_t)kvars;
    memcpy(file + n + 24, "HORN", 4);
    for (uint8_t edition = JIGGERREEF_Z3; edition <= JIGGERREEF_CVC5; edition++) {
        expect(jiggerreef_survey(file, n + 28, edition, sizes) == number, "survey refuses a fault with its number");
        expect(jiggerreef_part(file, n + 28, buf, 1, edition, 0, &length) == number, "so does part");
        expect(jiggerreef_script(file, n + 28, buf, 1, edition, &length) == number && buf[0] == FILLED, "so does script, and changes nothing");
    }
    run_refused(number, file, n + 28, (struct run){0, 3, 512, PLACES}, "so does run");
    run_refused(number, file, n + 28, (struct run){SIZE_MAX, SIZE_MAX, 0, 0}, "so does run past the last part and without room");
}

static void refused_with(uint8_t number, const uint8_t *constraint, size_t n) { refused_behind(number, 0, constraint, n); }

/* ForAll x over a BitVec of Int; SetEmpty; a WKVar */
static void forms(void) {
    static const uint8_t width[] = {2, 1, 'x', 4, 0, 0, 0, 1, 0, 0}, unqualified[] = {0, 1, 18, 38}, weak[] = {0, 1, 6};
    refused_with(12, width, sizeof width);
    refused_with(13, unqualified, sizeof unqualified);
    refused_with(14, weak, sizeof weak);
}

/* the constant lim; ForAll x with the predicate x < lim, over ForAll lim over the head lim >= x; and with that ForAll named lin */
static void declared(void) {
    static const uint8_t sections[] = {3, 'l', 'i', 'm', 0, 2, 1, 'x', 0, 1, 0, 1, 10, 4, 5, 1, 'x', 5, 3, 'l', 'i', 'm',
        2, 3, 'l', 'i', 'm', 0, 0, 0, 0, 1, 10, 3, 5, 3, 'l', 'i', 'm', 5, 1, 'x'};
    enum { N = sizeof sections + 28 };
    uint8_t file[N] = {0}, buf[1] = {FILLED};
    size_t sizes[4], length;
    memcpy(file, sections, sizeof sections);
    file[N - 16] = file[N - 12] = file[N - 8] = 5;
    memcpy(file + N - 4, "HORN", 4);
    expect(jiggerreef_survey(file, N, JIGGERREEF_Z3, sizes) == 15, "survey refuses a ForAll named like a constant with 15");
    expect(jiggerreef_part(file, N, buf, 1, JIGGERREEF_Z3, 0, &length) == 15, "so does part");
    expect(jiggerreef_script(file, N, buf, 1, JIGGERREEF_Z3, &length) == 15 && buf[0] == FILLED, "so does script, and changes nothing");
    run_refused(15, file, N, (struct run){0, 4, 512, PLACES}, "so does run");
    file[26] = 'n';
    expect(jiggerreef_survey(file, N, JIGGERREEF_Z3, sizes) == 0 && sizes[1] == 1, "under another name it is accepted");
}

/* the Var a, with nothing declared; IsCtor of a, likewise; the KVar k as a Var; the predicate k, undeclared; the KVar k over one Int, without an
   argument and with one */
static void known(void) {
    static const uint8_t var[] = {0, 1, 5, 1, 'a'}, tester[] = {0, 1, 19, 1, 'a', 1, 1}, kvar[] = {0, 0, 1, 'k', 0, 0};
    static const uint8_t as_var[] = {1, 'k', 1, 0, 0, 0, 1, 5, 1, 'k'}, fewer[] = {1, 'k', 1, 0, 0, 0, 0, 1, 'k', 0, 0};
    static const uint8_t as_many[] = {1, 'k', 1, 0, 0, 0, 0, 1, 'k', 1, 0, 1, 1};
    refused_with(10, var, sizeof var);
    refused_with(10, tester, sizeof tester);
    refused_with(10, kvar, sizeof kvar);
    refused_behind(10, 5, as_var, sizeof as_var);
    refused_behind(11, 5, fewer, sizeof fewer);
    uint8_t file[sizeof as_many + 28] = {0};
    size_t sizes[4];
    memcpy(file, as_many, sizeof as_many);
    file[sizeof as_many + 20] = 5;
    memcpy(file + sizeof as_many + 24, "HORN", 4);
    expect(jiggerreef_survey(file, sizeof file, JIGGERREEF_Z3, sizes) == 0 && sizes[1] == 1, "with an argument it is accepted");
}

/* a head that is a string of one quotation mark */
static void quoted(void) {
    static const uint8_t constraint[] = {0, 1, 3, 1, 0, '"'}, assertion[] = "(assert (=> (not \"\"\"\") false))\n";
    uint8_t file[34] = {0}, buf[64];
    size_t length = 0;
    memcpy(file, constraint, 6);
    memcpy(file + 30, "HORN", 4);
    expect(jiggerreef_part(file, 34, buf, 64, JIGGERREEF_Z3, 2, &length) == 0, "a string with a quotation mark is accepted");
    expect(length == sizeof assertion - 1 && memcmp(buf, assertion, length) == 0, "and the mark is written twice");
}

/* all parts but the opening in one run: blank line, assertion and closing. Parts from 1 on, 3 of them, n + 14 bytes and 5 places: but for edition 1 no
   argument has the value of another */
static void named_in_run(const uint8_t *file, size_t file_len, uint8_t edition, const char *assertion, size_t n) {
    struct lent expected = filled();
    expected.buf[0] = '\n';
    memcpy(expected.buf + 1, assertion, n);
    memcpy(expected.buf + 1 + n, "\n(check-sat)\n", 13);
    expected.lengths[0] = 1;
    expected.lengths[1] = (uint32_t)n;
    expected.lengths[2] = 13;
    expected.length = n + 14;
    ran(file, file_len, edition, (struct run){1, 3, n + 13, 5}, 9, filled(), "run measures with the names of the edition");
    ran(file, file_len, edition, (struct run){1, 3, n + 14, 5}, 0, expected, "run takes the room of the edition's text");
}

/* a head that is SetMem of true in SetSng of true, in the edition of a number */
static void named(uint8_t edition, const char *assertion) {
    static const uint8_t constraint[] = {0, 1, 17, 0, 18, 44, 2, 0, 1, 1, 17, 0, 18, 39, 1, 0, 1, 1};
    enum { N = sizeof constraint + 28 };
    uint8_t file[N] = {0}, buf[256];
    size_t n = strlen(assertion), length = 0, sizes[4] = {0, 0, 0, 0};
    memcpy(file, constraint, sizeof constraint);
    memcpy(file + N - 4, "HORN", 4);
    memset(buf, FILLED, sizeof buf);
    expect(jiggerreef_survey(file, N, edition, sizes) == 0 && sizes[0] == 4 && sizes[1] == 1 && sizes[2] == n + 32 && sizes[3] == n,
        "survey measures with the names of the edition");
    expect(jiggerreef_part(file, N, buf, n - 1, edition, 2, &length) == 9 && unchanged(buf, 0, sizeof buf), "so does part");
    expect(jiggerreef_part(file, N, buf, n, edition, 2, &length) == 0 && length == n, "part takes the room of the edition's text");
    expect(memcmp(buf, assertion, n) == 0 && unchanged(buf, n, sizeof buf), "and writes that text");
    expect(jiggerreef_script(file, N, buf, n + 32, edition, &length) == 0 && length == n + 32 && unchanged(buf, n + 32, sizeof buf), "so does script");
    expect(memcmp(buf + 19, assertion, n) == 0, "with that text in it");
    named_in_run(file, N, edition, assertion, n);
}

/* 0 is Z3, any other number cvc5 */
static void editions(void) {
    static const char cvc5[] = "(assert (=> (not (set.member true (set.singleton true))) false))\n";
    named(JIGGERREEF_Z3, "(assert (=> (not (member true (singleton true))) false))\n");
    named(JIGGERREEF_CVC5, cvc5);
    named(2, cvc5);
    named(128, cvc5);
    named(UINT8_MAX, cvc5);
}

int main(int argc, char **argv) {
    static uint8_t file[MOST], script[MOST];
    if (argc != 3) {
        return 2;
    }
    size_t n = contents(argv[1], file), m = contents(argv[2], script);
    surveyed(file, n, m);
    joined(file, n, script, m);
    written(file, n, script, m);
    runs(file, n, script, m);
    refused();
    forms();
    declared();
    known();
    quoted();
    editions();
    printf("%d passed, %d failed\n", passed, failed);
    return failed != 0;
}
