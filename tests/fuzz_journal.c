/* The calls on journals under libFuzzer; tests/fuzz builds it over the module of the proved code, with its branches counted. An input is what stands between a
 * journal's own length and its hash, so states and ranges. Of every input:
 *  - the end refuses it and leaves the buffer as it was, and the check says the same of it with length and hash made; or both accept it;
 *  - then the calls give ranges up to the hash, rising, within the journal and their files, and without a gap from an old to a new length;
 *  - made again, by begin, a call for each range and the end, it is the same bytes;
 *  - an archive before, the one after and a mixture of both are between, the writes in two orders give the one after, and a strange byte is found.
 * A page that can't be read stands behind whatever is lent. */
#include "sleep_register.h"
#include <stdlib.h>
#include <string.h>
#include <sys/mman.h>

enum { FRONT = 184, HASH = 32, FILES = 10, MOST = 1 << 16, POOL = 1 << 18, RANGES = MOST / 18 };

struct range {
    uint64_t file, kind, offset, length, place;
};

struct file {
    uint64_t state;
    uint8_t *bytes;
};

static struct range ranges[RANGES];
static size_t count;
static uint64_t states[2 * FILES], drawn;
static uint8_t pools[3][POOL];

static void hold(int right) {
    if (!right) abort();
}

static uint64_t draw(uint64_t below) {
    drawn ^= drawn << 13, drawn ^= drawn >> 7, drawn ^= drawn << 17;
    return drawn % below;
}

/* Bytes that end where nothing can be read. */
static uint8_t *lent(int which, size_t length) {
    static uint8_t *ends[2];
    if (!ends[which]) {
        uint8_t *pages = mmap(NULL, POOL + 4096, PROT_READ | PROT_WRITE, MAP_PRIVATE | MAP_ANONYMOUS, -1, 0);
        hold(pages != MAP_FAILED && mprotect(pages + POOL, 4096, PROT_NONE) == 0);
        ends[which] = pages + POOL;
    }
    return ends[which] - length;
}

static uint64_t length_of(uint64_t state) { return state ? state - 1 : 0; }

static void put_number(uint8_t *at, uint64_t number) {
    for (int i = 0; i < 8; i++) at[i] = (uint8_t)(number >> (56 - 8 * i));
}

/* All ten files: the first that is not between, or FILES. */
static int judged(const uint8_t *journal, size_t length, const struct file *archive, sleep_journal_answer *said) {
    uint64_t at = FRONT;
    for (int i = 0; i < FILES; i++) {
        const uint64_t held = length_of(archive[i].state);
        uint8_t *bytes = lent(1, held);
        memcpy(bytes, archive[i].bytes, held);
        *said = sleep_journal_between(journal, length, (uint64_t)i, at, archive[i].state != 0, bytes, held);
        if (said->number) return i;
        at = said->place;
    }
    hold(at == length - HASH);
    return FILES;
}

static void write_range(struct file *archive, const uint8_t *journal, const struct range *r) {
    uint8_t *to = archive[r->file].bytes + r->offset;
    if (r->kind == 3) memset(to, 0, r->length);
    else if (r->kind != 4) memcpy(to, journal + r->place, r->length);
}

/* The ranges that the calls give, held to the rules. */
static void walk(const uint8_t *journal, size_t length) {
    uint64_t at = FRONT, last = 0, numbers[5], reach[FILES] = {0}, covered[FILES];
    for (int i = 0; i < FILES; i++) covered[i] = length_of(states[2 * i]);
    for (count = 0;; count++) {
        const sleep_journal_answer said = sleep_journal_next(journal, length, at, numbers);
        if (said.number) {
            hold(said.number == SLEEP_JOURNAL_RANGE && said.place == at && at == length - HASH);
            for (int i = 0; i < FILES; i++) hold(covered[i] == length_of(states[2 * i + 1]));
            return;
        }
        const struct range r = {numbers[0], numbers[1], numbers[2], numbers[3], numbers[4]};
        hold(count < RANGES && r.file < FILES && r.kind >= 1 && r.kind <= 4 && r.length >= 1);
        hold(r.offset <= length_of(states[2 * r.file + 1]) && r.length <= length_of(states[2 * r.file + 1]) - r.offset);
        hold(r.kind == 3 || (r.place <= length - HASH && r.length <= length - HASH - r.place));
        hold(said.place > at && said.place <= length - HASH);
        const uint64_t stop = r.offset + r.length;
        hold(r.file >= last && r.offset >= reach[r.file]);
        if (r.kind == 1 || r.kind == 4) hold(stop <= length_of(states[2 * r.file]));
        else hold(r.offset <= covered[r.file]);
        last = r.file, reach[last] = stop;
        if (stop > covered[last]) covered[last] = stop;
        ranges[count] = r;
        at = said.place;
    }
}

/* The same journal, made from its states and ranges. */
static void remade(const uint8_t *journal, size_t length) {
    uint8_t *made = lent(1, length);
    memset(made, 0x5a, length);
    sleep_journal_answer said = sleep_journal_begin(made, length, states);
    for (size_t k = 0; k < count; k++) {
        const struct range *r = &ranges[k];
        const uint8_t *new = journal + r->place, *old = r->kind == 1 ? new - r->length : new;
        const size_t olds = r->kind == 1 || r->kind == 4 ? r->length : 0, news = r->kind == 1 || r->kind == 2 ? r->length : 0;
        hold(said.number == SLEEP_JOURNAL_DONE);
        said = sleep_journal_put(made, length, said.place, r->file, r->kind, r->offset, r->length, old, olds, new, news);
    }
    hold(said.number == SLEEP_JOURNAL_DONE && said.place == length - HASH);
    said = sleep_journal_end(made, length, said.place);
    hold(said.number == SLEEP_JOURNAL_DONE && said.place == length && memcmp(made, journal, length) == 0);
}

/* Three archives in their pools: before, after, and a mixture that a stop can leave. */
static void lay(const uint8_t *journal, struct file archives[3][FILES]) {
    size_t at = 0;
    for (int i = 0; i < FILES; i++) {
        const uint64_t old = states[2 * i], new = states[2 * i + 1];
        for (int k = 0; k < 3; k++) archives[k][i] = (struct file){k ? new : old, pools[k] + at};
        archives[2][i].state = old + draw(new - old + 1);
        for (uint64_t b = 0; b < length_of(new); b++) pools[0][at + b] = b < length_of(old) ? (uint8_t)draw(256) : 0;
        at += length_of(new);
    }
    for (size_t k = 0; k < count; k++) {
        const struct range *r = &ranges[k];
        const uint64_t from = r->kind == 1 ? r->place - r->length : r->place;
        if (r->kind == 1 || r->kind == 4) memcpy(archives[0][r->file].bytes + r->offset, journal + from, r->length);
    }
    memcpy(pools[1], pools[0], at);
    for (size_t k = 0; k < count; k++) write_range(archives[1], journal, &ranges[k]);
    for (size_t b = 0; b < at; b++) pools[2][b] = pools[draw(2)][b];
    for (size_t k = 0; k < count; k++)
        for (uint64_t b = 0; b < ranges[k].length && (ranges[k].kind == 2 || ranges[k].kind == 3); b++)
            archives[2][ranges[k].file].bytes[ranges[k].offset + b] = (uint8_t)draw(256);
}

/* A byte that is neither the old nor the new one is found. */
static void strange(const uint8_t *journal, size_t length, struct file *before) {
    const struct range *r = &ranges[draw(count)];
    const uint64_t offset = r->offset + draw(r->length), in = offset - r->offset;
    if (r->kind == 2 || r->kind == 3) return;
    const uint8_t new = journal[r->place + in], old = r->kind == 1 ? journal[r->place - r->length + in] : new;
    uint8_t *byte = &before[r->file].bytes[offset];
    do *byte = (uint8_t)draw(256);
    while (*byte == old || *byte == new);
    sleep_journal_answer said;
    hold(judged(journal, length, before, &said) == (int)r->file && said.number == SLEEP_JOURNAL_BYTE && said.place == offset);
}

static void accepted(const uint8_t *journal, size_t length) {
    uint64_t all = 0;
    for (int i = 0; i < FILES; i++) {
        hold(sleep_journal_states(journal, length, (uint64_t)i, &states[2 * i]).number == SLEEP_JOURNAL_DONE);
        hold(states[2 * i] <= states[2 * i + 1]);
        if (length_of(states[2 * i + 1]) > POOL) all = POOL;
        all += length_of(states[2 * i + 1]);
    }
    walk(journal, length);
    remade(journal, length);
    if (all > POOL) return;
    struct file archives[3][FILES];
    lay(journal, archives);
    sleep_journal_answer said;
    for (int k = 0; k < 3; k++) hold(judged(journal, length, archives[k], &said) == FILES);
    /* what is cut off by the length reads as zeros when the file gets its new length */
    for (int i = 0; i < FILES; i++) {
        const uint64_t is = length_of(archives[2][i].state), new = length_of(states[2 * i + 1]);
        memset(archives[2][i].bytes + is, 0, new - is);
    }
    for (size_t k = count; k-- > 0;) write_range(archives[2], journal, &ranges[k]);
    for (int i = 0; i < FILES; i++) hold(memcmp(archives[2][i].bytes, archives[1][i].bytes, length_of(states[2 * i + 1])) == 0);
    for (size_t k = 0; k < count; k++) write_range(archives[2], journal, &ranges[k]);
    for (int i = 0; i < FILES; i++) hold(memcmp(archives[2][i].bytes, archives[1][i].bytes, length_of(states[2 * i + 1])) == 0);
    if (count) strange(journal, length, archives[0]);
}

int LLVMFuzzerTestOneInput(const uint8_t *data, size_t size) {
    static uint8_t before[MOST];
    const size_t length = 24 + size + HASH;
    if (length > MOST) return 0;
    drawn = 88172645463325252u + size;
    uint8_t *journal = lent(0, size);
    memcpy(journal, data, size);
    if (sleep_journal_check(journal, size).number == SLEEP_JOURNAL_DONE) accepted(journal, size);
    journal = lent(0, length);
    memcpy(journal, "sleep-archive 2\n", 16);
    memset(journal + 16, 0, 8);
    memcpy(journal + 24, data, size);
    memset(journal + length - HASH, 0xa5, HASH);
    memcpy(before, journal, length);
    const sleep_journal_answer said = sleep_journal_end(journal, length, length - HASH);
    if (said.number == SLEEP_JOURNAL_DONE) {
        hold(said.place == length);
    } else {
        hold(memcmp(before, journal, length) == 0);
        put_number(journal + 16, length);
        hold(sleep_hash_parts(NULL, 0, NULL, 0, journal, length - HASH, journal + length - HASH) == 0);
    }
    const sleep_journal_answer read = sleep_journal_check(journal, length);
    hold(read.number == said.number && read.place == said.place);
    if (read.number == SLEEP_JOURNAL_DONE) accepted(journal, length);
    return 0;
}
