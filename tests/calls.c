/* Makes the calls that tests/recording.py wrote, from standard input, and writes what they answer and what every buffer holds afterwards, to standard output, in the
 * form that is said there. Each call goes through the header's front, so that the structs of this processor's C are used too. Each buffer stands alone in memory, bytes
 * at an odd address, between guards that no call may touch. */
#include <inttypes.h>
#include <stdio.h>
#include <stdlib.h>
#include <string.h>

#include "sleep_register.h"

enum { MOST_WORDS = 24, GUARD = 16, MARK = 0xa5 };

static struct {
    int kind; /* n, b or w */
    uint64_t number, length;
    uint8_t *memory, *at, *before;
    uint64_t *numbers;
    size_t bytes;
} word[MOST_WORDS];
static uint64_t words;

static void fail(const char *what) {
    fprintf(stderr, "calls: %s\n", what);
    exit(1);
}

static int byte_in(void) {
    const int c = getchar();
    if (c == EOF) fail("the input ends within a call");
    return c;
}

static uint64_t number_in(void) {
    uint64_t number = 0;
    for (int k = 0; k < 8; k++) number = number << 8 | (uint64_t)byte_in();
    return number;
}

static void number_out(uint64_t number) {
    for (int k = 56; k >= 0; k -= 8) putchar((int)(number >> k & 255));
}

/* A buffer of its own, with what the input has for it. */
static void buffer_in(uint64_t i) {
    const int numbers = word[i].kind == 'w';
    word[i].length = number_in();
    word[i].bytes = (size_t)word[i].length * (numbers ? 8 : 1);
    word[i].memory = malloc(word[i].bytes + 2 * GUARD + 8);
    word[i].before = malloc(word[i].bytes + 1);
    if (!word[i].memory || !word[i].before) fail("no memory");
    word[i].at = word[i].memory + GUARD + (numbers ? 0 : 1);
    word[i].numbers = (uint64_t *)(void *)(word[i].memory + GUARD);
    memset(word[i].memory, MARK, word[i].bytes + 2 * GUARD + 8);
    for (uint64_t k = 0; k < word[i].length; k++) {
        if (numbers) word[i].numbers[k] = number_in();
        else word[i].at[k] = (uint8_t)byte_in();
    }
    memcpy(word[i].before, word[i].at, word[i].bytes);
}

static void buffer_out(uint64_t i) {
    const uint8_t *front = word[i].memory, *behind = word[i].at + word[i].bytes, *end = word[i].memory + word[i].bytes + 2 * GUARD + 8;
    for (; front < word[i].at; front++) if (*front != MARK) fail("a call wrote before its buffer");
    for (; behind < end; behind++) if (*behind != MARK) fail("a call wrote behind its buffer");
    if (memcmp(word[i].before, word[i].at, word[i].bytes) == 0) {
        putchar(0);
    } else {
        putchar(1);
        for (uint64_t k = 0; k < word[i].length; k++) {
            if (word[i].kind == 'w') number_out(word[i].numbers[k]);
            else putchar(word[i].at[k]);
        }
    }
    free(word[i].memory);
    free(word[i].before);
}

static void told(sleep_answer a) {
    number_out(a.number);
    number_out(a.place_kind);
    number_out(a.place);
}

static void noted(sleep_journal_answer a) {
    number_out(a.number);
    number_out(a.place);
}

static void compared(sleep_comparison c) {
    number_out(c.outcome);
    told(c.answer);
}

static void served(sleep_serving s) {
    number_out(s.served);
    number_out(s.station);
    number_out(s.name);
    number_out(s.chunk);
    told(s.answer);
}

static void found(sleep_found f) {
    number_out(f.found);
    number_out(f.chunk);
    told(f.answer);
}

static void number_told(sleep_number x) {
    number_out(x.given);
    number_out(x.value);
}

static void part_told(sleep_part x) {
    number_out(x.offset);
    number_out(x.length);
}

static void bytes_told(sleep_bytes x) {
    number_out(x.given);
    part_told(x.part);
}

static void node_told(sleep_node_read r) {
    const sleep_stat *s = &r.node.value;
    const sleep_number stat[9] = {s->mode, s->uid, s->gid, s->size, s->blocks, s->offset, s->byte_offset, s->mtime, s->ctime};
    told(r.answer);
    part_told(r.node.path);
    number_out(s->given);
    for (int k = 0; k < 9; k++) number_told(stat[k]);
    bytes_told(r.node.trie);
    number_out(r.node.count);
    for (unsigned k = 0; k < SLEEP_MOST_WRITERS; k++) {
        part_told(r.node.writers[k].key);
        bytes_told(r.node.writers[k].permission);
    }
    number_told(r.node.sequence);
}

/* The Node that 67 numbers stand for, field by field and not by the header's own way. */
static sleep_node node_lent(const uint64_t *a) {
    sleep_node n;
    sleep_number *const stat[9] = {&n.value.mode,   &n.value.uid,         &n.value.gid,   &n.value.size, &n.value.blocks,
                                   &n.value.offset, &n.value.byte_offset, &n.value.mtime, &n.value.ctime};
    n.path = (sleep_part){a[0], a[1]};
    n.value.given = a[2];
    for (int k = 0; k < 9; k++) *stat[k] = (sleep_number){a[3 + 2 * k], a[4 + 2 * k]};
    n.trie = (sleep_bytes){a[21], {a[22], a[23]}};
    n.count = a[24];
    for (int k = 0; k < 8; k++) n.writers[k] = (sleep_writer){{a[25 + 5 * k], a[26 + 5 * k]}, {a[27 + 5 * k], {a[28 + 5 * k], a[29 + 5 * k]}}};
    n.sequence = (sleep_number){a[65], a[66]};
    return n;
}

/* A buffer with its length, an array of bytes, an array of numbers, a number; a register, its images alone, and a copy, from word i on. */
#define AT(i) word[i].at, (size_t)word[i].length
#define P(i) word[i].at
#define Q(i) word[i].numbers
#define N(i) word[i].number
#define IMAGES(i) AT(i), AT(i + 1), AT(i + 2), AT(i + 3)
#define R(i) IMAGES(i), N(i + 4), N(i + 5), N(i + 6)
#define C(i) AT(i), AT(i + 1), AT(i + 2), N(i + 3), N(i + 4)
#define CALL(name, ...) if (strcmp(called, #name) == 0) return __VA_ARGS__

static void on_register(const char *called) {
    CALL(start, told(sleep_start(IMAGES(0))));
    CALL(append, told(sleep_append(R(0), AT(7), P(8))));
    CALL(append_list, told(sleep_append_list(R(0), Q(7), (size_t)word[7].length, AT(8), P(9))));
    CALL(preview, told(sleep_preview(R(0), AT(7), P(8))));
    CALL(store_signature, told(sleep_store_signature(R(0), P(7))));
    CALL(root_hash, told(sleep_root_hash(R(0), P(7))));
    CALL(old_root, told(sleep_old_root(R(0), N(7), P(8))));
    CALL(stored_leaf, told(sleep_stored_leaf(R(0), N(7), P(8), Q(9))));
    CALL(audit, told(sleep_audit(R(0))));
    CALL(place, told(sleep_place(R(0), N(7), Q(8))));
    CALL(byte, told(sleep_byte(R(0), N(7), Q(8))));
    CALL(read, told(sleep_read(R(0), N(7), Q(8))));
    CALL(release, told(sleep_release(R(0), N(7))));
    CALL(search, told(sleep_search(R(0), N(7), Q(8))));
    CALL(short_place, told(sleep_short_place(R(0), N(7), Q(8))));
    CALL(short_byte, told(sleep_short_byte(R(0), N(7), Q(8))));
    CALL(short_search, told(sleep_short_search(R(0), N(7), Q(8))));
    CALL(make_packet, told(sleep_make_packet(R(0), N(7), AT(8), Q(9))));
    CALL(compare, compared(sleep_compare(R(0), R(7))));
    CALL(audit_tree_part, told(sleep_audit_tree_part(R(0), N(7), N(8))));
    CALL(audit_bitfield_part, told(sleep_audit_bitfield_part(R(0), N(7), N(8))));
    CALL(compare_held_part, told(sleep_compare_held_part(R(0))));
    CALL(compare_roots_part, compared(sleep_compare_roots_part(R(0), R(7))));
    CALL(compare_walk_part, compared(sleep_compare_walk_part(R(0), R(7), N(14), N(15))));
    CALL(header_of, told(sleep_header_of(R(0), N(7), Q(8))));
    CALL(node_of, node_told(sleep_node_of(R(0), N(7))));
    CALL(find, found(sleep_find(R(0), AT(7))));
    fail(called);
}

static void on_copy(const char *called) {
    CALL(make_copy, told(sleep_make_copy(C(0))));
    CALL(take_in, told(sleep_take_in(C(0), AT(5), N(6), P(7))));
    CALL(copy_audit, told(sleep_copy_audit(C(0))));
    CALL(copy_audit_tree_part, told(sleep_copy_audit_tree_part(C(0), N(5), N(6))));
    CALL(copy_audit_bitfield_part, told(sleep_copy_audit_bitfield_part(C(0), N(5), N(6))));
    CALL(copy_root_hash, told(sleep_copy_root_hash(C(0), P(5))));
    CALL(copy_old_root, told(sleep_copy_old_root(C(0), N(5), P(6))));
    CALL(copy_stored_leaf, told(sleep_copy_stored_leaf(C(0), N(5), P(6), Q(7))));
    CALL(copy_place, told(sleep_copy_place(C(0), N(5), Q(6))));
    CALL(copy_byte, told(sleep_copy_byte(C(0), N(5), Q(6))));
    CALL(copy_read, told(sleep_copy_read(C(0), N(5), Q(6))));
    CALL(copy_release, told(sleep_copy_release(C(0), N(5))));
    CALL(copy_search, told(sleep_copy_search(C(0), N(5), Q(6))));
    CALL(copy_short_place, told(sleep_copy_short_place(C(0), N(5), Q(6))));
    CALL(copy_short_byte, told(sleep_copy_short_byte(C(0), N(5), Q(6))));
    CALL(copy_short_search, told(sleep_copy_short_search(C(0), N(5), Q(6))));
    CALL(copy_make_packet, told(sleep_copy_make_packet(C(0), N(5), AT(6), Q(7))));
    CALL(copy_header_of, told(sleep_copy_header_of(C(0), N(5), Q(6))));
    CALL(copy_node_of, node_told(sleep_copy_node_of(C(0), N(5))));
    CALL(copy_find, found(sleep_copy_find(C(0), AT(5))));
    on_register(called);
}

static void on_journal(const char *called) {
    CALL(journal_begin, noted(sleep_journal_begin(AT(0), Q(1))));
    CALL(journal_put, noted(sleep_journal_put(AT(0), N(1), N(2), N(3), N(4), N(5), AT(6), AT(7))));
    CALL(journal_end, noted(sleep_journal_end(AT(0), N(1))));
    CALL(journal_check, noted(sleep_journal_check(AT(0))));
    CALL(journal_states, noted(sleep_journal_states(AT(0), N(1), Q(2))));
    CALL(journal_between, noted(sleep_journal_between(AT(0), N(1), N(2), N(3), AT(4))));
    CALL(journal_next, noted(sleep_journal_next(AT(0), N(1), Q(2))));
    on_copy(called);
}

static void call(const char *called) {
    CALL(hash, number_out(sleep_hash(N(0), AT(1), AT(2), P(3))));
    CALL(hash_parts, number_out(sleep_hash_parts(AT(0), AT(1), AT(2), P(3))));
    CALL(label, number_out(sleep_label(P(0), AT(1), P(2))));
    CALL(check_packet, told(sleep_check_packet(AT(0), N(1), N(2), P(3), Q(4))));
    CALL(compare_packets, compared(sleep_compare_packets(AT(0), AT(1), N(2), N(3), P(4))));
    CALL(group, told(sleep_group(AT(0), AT(1))));
    CALL(ungroup, told(sleep_ungroup(AT(0), AT(1))));
    CALL(needs, told(sleep_needs(N(0), N(1), Q(2), (size_t)word[2].length, Q(3))));
    CALL(fresh, told(sleep_fresh(Q(0))));
    CALL(enter, told(sleep_enter(Q(0), N(1), N(2), N(3))));
    CALL(serve, served(sleep_serve(Q(0), R(1), R(8), Q(15))));
    CALL(write_header, told(sleep_write_header(AT(0), AT(1), Q(2))));
    CALL(write_node, told(sleep_write_node(AT(0), node_lent(Q(1)), AT(2), Q(3))));
    CALL(read_header, told(sleep_read_header(AT(0), Q(1))));
    CALL(read_node, node_told(sleep_read_node(AT(0))));
    on_journal(called);
}

int main(void) {
    uint64_t calls = 0;
    for (int c; (c = getchar()) != EOF; calls++) {
        char called[32];
        size_t length = 0;
        for (; c != 0; c = byte_in()) {
            if (length + 1 == sizeof called) fail("a name is too long");
            called[length++] = (char)c;
        }
        called[length] = 0;
        words = number_in();
        if (words > MOST_WORDS) fail("too many words");
        for (uint64_t i = 0; i < words; i++) {
            word[i].kind = byte_in();
            if (word[i].kind == 'n') word[i].number = number_in();
            else buffer_in(i);
        }
        call(called);
        for (uint64_t i = 0; i < words; i++) if (word[i].kind != 'n') buffer_out(i);
    }
    fprintf(stderr, "%" PRIu64 " calls\n", calls);
    return 0;
}
