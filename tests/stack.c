/* The most stack that each call takes, held to the header's SLEEP_STACK_..: a call runs on a stack of its own that was painted, and what is no
 * longer paint was taken. The calls are made while a register grows to GROWN chunks, at its first chunks and where bitfield entries begin, on
 * whole and on damaged images, and then on a tree of the greatest depth and one with the most roots, that hold a path alone: a register's, and a
 * copy's that took it in. While it grows the register is lent as a copy too.
 * Link it with -z now, so that no symbol is looked up on the painted stack. */
#include <inttypes.h>
#include <stdio.h>
#include <stdlib.h>
#include <string.h>
#include <ucontext.h>

#include "sleep_register.h"

enum { GROWN = 16386, MOST = SLEEP_MOST_CHUNKS, STACK = 32768, PAINT = 0xa5, DATA = 8 * GROWN + 3 * SLEEP_LONGEST_CHUNK };

static uint8_t tree[32 + 40 * (2 * MOST - 1)], signatures[32 + 64 * MOST], bitfield[32 + 3328 * (MOST / 8192)], data[DATA];
static uint64_t n, s, size;
#define REGISTER tree, sizeof tree, signatures, sizeof signatures, bitfield, sizeof bitfield, data, sizeof data, n, s, size
#define COPY tree, sizeof tree, bitfield, sizeof bitfield, data, sizeof data, n, size

static uint8_t chunk[SLEEP_LONGEST_CHUNK], packet[SLEEP_LONGEST_CHUNK + SLEEP_PACKET_EXTRA], root[32], digest[64];
static uint64_t chunk_length, sought, packet_length, out[2], number, outcome, lengths[SLEEP_MOST_LISTED], listed, needed[SLEEP_NEEDS_NUMBERS], table[SLEEP_TABLE_NUMBERS];
static sleep_node node;
static sleep_node_read read_back;

static void start(void) { number = sleep_start(tree, sizeof tree, signatures, sizeof signatures, bitfield, sizeof bitfield, data, DATA).number; }
static void hash(void) { number = sleep_hash(64, chunk, 64, chunk, sizeof chunk, digest); }
static void hash_parts(void) { number = sleep_hash_parts(chunk, 64, chunk, 9, chunk, sizeof chunk, digest); }
static void label(void) { number = sleep_label(root, chunk, 64, digest); }
static void append(void) { number = sleep_append(REGISTER, chunk, chunk_length, root).number; }
static void append_list(void) { number = sleep_append_list(REGISTER, lengths, listed, chunk, chunk_length, root).number; }
static void preview(void) { number = sleep_preview(REGISTER, chunk, chunk_length, root).number; }
static void store_signature(void) { number = sleep_store_signature(REGISTER, digest).number; }
static void root_hash(void) { number = sleep_root_hash(REGISTER, root).number; }
static void old_root(void) { number = sleep_old_root(REGISTER, sought, digest).number; }
static void stored_leaf(void) { number = sleep_stored_leaf(REGISTER, sought, digest, out).number; }
static void version(void) { number = sleep_version() - SLEEP_VERSION; }
static void audit(void) { number = sleep_audit(REGISTER).number; }
static void place(void) { number = sleep_place(REGISTER, sought, out).number; }
static void byte(void) { number = sleep_byte(REGISTER, sought, out).number; }
static void verified_read(void) { number = sleep_read(REGISTER, sought, out).number; }
static void release(void) { number = sleep_release(REGISTER, sought).number; }
static void search(void) { number = sleep_search(REGISTER, sought, out).number; }
static void short_place(void) { number = sleep_short_place(REGISTER, sought, out).number; }
static void short_byte(void) { number = sleep_short_byte(REGISTER, sought, out).number; }
static void short_search(void) { number = sleep_short_search(REGISTER, sought, out).number; }
static void make_packet(void) { number = sleep_make_packet(REGISTER, sought, packet, sizeof packet, &packet_length).number; }
static void check_packet(void) { number = sleep_check_packet(packet, packet_length, n, sought, root, out).number; }
static void group(void) { number = sleep_group(chunk, sizeof chunk, packet, sizeof packet).number; }
static void ungroup(void) { number = sleep_ungroup(chunk, sizeof chunk, packet, sizeof packet).number; }
static void needs(void) { number = sleep_needs(sought, 0, lengths, 256, needed).number; }
static void compare_packets(void) { number = sleep_compare_packets(packet, packet_length, packet, packet_length, n, sought, root).answer.number; }
static void fresh(void) { number = sleep_fresh(table).number; }
static void enter(void) { number = sleep_enter(table, sought % 17, SLEEP_CONTENT, sought).number; }
static void serve(void) { number = sleep_serve(table, REGISTER, REGISTER, out).answer.number; }
static void write_header(void) { number = sleep_write_header(chunk, SLEEP_CONTENT_BYTES, packet, sizeof packet, &packet_length).number; }
static void write_node(void) { number = sleep_write_node(chunk, sizeof chunk, node, packet, sizeof packet, &packet_length).number; }
static void read_header(void) { number = sleep_read_header(packet, packet_length, out).number; }
static void read_node(void) { number = (read_back = sleep_read_node(packet, packet_length)).answer.number; }
static void header_of(void) { number = sleep_header_of(REGISTER, sought, out).number; }
static void node_of(void) { number = (read_back = sleep_node_of(REGISTER, sought)).answer.number; }
static void find(void) { number = sleep_find(REGISTER, chunk, 3).answer.number; }
static void make_copy(void) { number = sleep_make_copy(COPY).number; }
static void take_in(void) { number = sleep_take_in(COPY, packet, packet_length, sought, root).number; }
static void copy_audit(void) { number = sleep_copy_audit(COPY).number; }
static void copy_root_hash(void) { number = sleep_copy_root_hash(COPY, digest).number; }
static void copy_old_root(void) { number = sleep_copy_old_root(COPY, sought, digest).number; }
static void copy_stored_leaf(void) { number = sleep_copy_stored_leaf(COPY, sought, digest, out).number; }
static void copy_place(void) { number = sleep_copy_place(COPY, sought, out).number; }
static void copy_byte(void) { number = sleep_copy_byte(COPY, sought, out).number; }
static void copy_read(void) { number = sleep_copy_read(COPY, sought, out).number; }
static void copy_release(void) { number = sleep_copy_release(COPY, sought).number; }
static void copy_search(void) { number = sleep_copy_search(COPY, sought, out).number; }
static void copy_short_place(void) { number = sleep_copy_short_place(COPY, sought, out).number; }
static void copy_short_byte(void) { number = sleep_copy_short_byte(COPY, sought, out).number; }
static void copy_short_search(void) { number = sleep_copy_short_search(COPY, sought, out).number; }
static void copy_make_packet(void) { number = sleep_copy_make_packet(COPY, sought, packet, sizeof packet, &packet_length).number; }
static void copy_header_of(void) { number = sleep_copy_header_of(COPY, sought, out).number; }
static void copy_node_of(void) { number = (read_back = sleep_copy_node_of(COPY, sought)).answer.number; }
static void copy_find(void) { number = sleep_copy_find(COPY, chunk, 3).answer.number; }
static void audit_tree_part(void) { number = sleep_audit_tree_part(REGISTER, sought, UINT64_MAX).number; }
static void audit_bitfield_part(void) { number = sleep_audit_bitfield_part(REGISTER, 0, UINT64_MAX).number; }
static void copy_audit_tree_part(void) { number = sleep_copy_audit_tree_part(COPY, sought, UINT64_MAX).number; }
static void copy_audit_bitfield_part(void) { number = sleep_copy_audit_bitfield_part(COPY, 0, UINT64_MAX).number; }
static void compare_held_part(void) { number = sleep_compare_held_part(REGISTER).number; }
static void compare_roots_part(void) { outcome = sleep_compare_roots_part(REGISTER, REGISTER).outcome; }
static void compare_walk_part(void) { outcome = sleep_compare_walk_part(REGISTER, REGISTER, sought, UINT64_MAX).outcome; }
static void compare(void) { outcome = sleep_compare(REGISTER, REGISTER).outcome; }

/* A journal in the packet's buffer: the key of the metadata changes. */
static uint64_t states[20] = {[16] = 33, [17] = 33}, range[5], at;
#define JOURNAL packet, packet_length
static void journal_begin(void) { number = sleep_journal_begin(packet, sizeof packet, states).number; }
static void journal_put(void) { number = sleep_journal_put(packet, sizeof packet, at, 8, 1, 0, 32, chunk, 32, chunk + 32, 32).number; }
static void journal_end(void) { number = sleep_journal_end(packet, sizeof packet, at).number; }
static void journal_check(void) { number = sleep_journal_check(JOURNAL).number; }
static void journal_states(void) { number = sleep_journal_states(JOURNAL, 8, range).number; }
static void journal_between(void) { number = sleep_journal_between(JOURNAL, 8, 184, 1, chunk, 32).number; }
static void journal_next(void) { number = sleep_journal_next(JOURNAL, 184, range).number; }

enum { START, HASH, HASH_PARTS, LABEL, APPEND, APPEND_LIST, PREVIEW, STORE_SIGNATURE, ROOT_HASH, OLD_ROOT, STORED_LEAF, VERSION, AUDIT, PLACE, BYTE, READ, RELEASE, SEARCH, SHORT_PLACE, SHORT_BYTE, SHORT_SEARCH, MAKE_PACKET, CHECK_PACKET, COMPARE_PACKETS, COMPARE, GROUP, UNGROUP, NEEDS, FRESH, ENTER, SERVE, WRITE_HEADER, WRITE_NODE, READ_HEADER, READ_NODE, HEADER_OF, NODE_OF, FIND,
       MAKE_COPY, TAKE_IN, COPY_AUDIT, COPY_ROOT_HASH, COPY_OLD_ROOT, COPY_STORED_LEAF, COPY_PLACE, COPY_BYTE, COPY_READ,
       COPY_RELEASE, COPY_SEARCH, COPY_SHORT_PLACE, COPY_SHORT_BYTE, COPY_SHORT_SEARCH, COPY_MAKE_PACKET, COPY_HEADER_OF, COPY_NODE_OF, COPY_FIND,
       JOURNAL_BEGIN, JOURNAL_PUT, JOURNAL_END, JOURNAL_CHECK, JOURNAL_STATES, JOURNAL_BETWEEN, JOURNAL_NEXT,
       AUDIT_TREE_PART, AUDIT_BITFIELD_PART, COPY_AUDIT_TREE_PART, COPY_AUDIT_BITFIELD_PART, COMPARE_HELD_PART, COMPARE_ROOTS_PART, COMPARE_WALK_PART, CALLS };

static struct {
    const char *name;
    void (*call)(void);
    size_t most, taken;
} calls[CALLS] = {
    {"sleep_start", start, SLEEP_STACK_START, 0},
    {"sleep_hash", hash, SLEEP_STACK_HASH, 0},
    {"sleep_hash_parts", hash_parts, SLEEP_STACK_HASH_PARTS, 0},
    {"sleep_label", label, SLEEP_STACK_LABEL, 0},
    {"sleep_append", append, SLEEP_STACK_APPEND, 0},
    {"sleep_append_list", append_list, SLEEP_STACK_APPEND_LIST, 0},
    {"sleep_preview", preview, SLEEP_STACK_PREVIEW, 0},
    {"sleep_store_signature", store_signature, SLEEP_STACK_STORE_SIGNATURE, 0},
    {"sleep_root_hash", root_hash, SLEEP_STACK_ROOT_HASH, 0},
    {"sleep_old_root", old_root, SLEEP_STACK_OLD_ROOT, 0},
    {"sleep_stored_leaf", stored_leaf, SLEEP_STACK_STORED_LEAF, 0},
    {"sleep_version", version, SLEEP_STACK_VERSION, 0},
    {"sleep_audit", audit, SLEEP_STACK_AUDIT, 0},
    {"sleep_place", place, SLEEP_STACK_PLACE, 0},
    {"sleep_byte", byte, SLEEP_STACK_BYTE, 0},
    {"sleep_read", verified_read, SLEEP_STACK_READ, 0},
    {"sleep_release", release, SLEEP_STACK_RELEASE, 0},
    {"sleep_search", search, SLEEP_STACK_SEARCH, 0},
    {"sleep_short_place", short_place, SLEEP_STACK_SHORT_PLACE, 0},
    {"sleep_short_byte", short_byte, SLEEP_STACK_SHORT_BYTE, 0},
    {"sleep_short_search", short_search, SLEEP_STACK_SHORT_SEARCH, 0},
    {"sleep_make_packet", make_packet, SLEEP_STACK_MAKE_PACKET, 0},
    {"sleep_check_packet", check_packet, SLEEP_STACK_CHECK_PACKET, 0},
    {"sleep_compare_packets", compare_packets, SLEEP_STACK_COMPARE_PACKETS, 0},
    {"sleep_compare", compare, SLEEP_STACK_COMPARE, 0},
    {"sleep_group", group, SLEEP_STACK_GROUP, 0},
    {"sleep_ungroup", ungroup, SLEEP_STACK_UNGROUP, 0},
    {"sleep_needs", needs, SLEEP_STACK_NEEDS, 0},
    {"sleep_fresh", fresh, SLEEP_STACK_FRESH, 0},
    {"sleep_enter", enter, SLEEP_STACK_ENTER, 0},
    {"sleep_serve", serve, SLEEP_STACK_SERVE, 0},
    {"sleep_write_header", write_header, SLEEP_STACK_WRITE_HEADER, 0},
    {"sleep_write_node", write_node, SLEEP_STACK_WRITE_NODE, 0},
    {"sleep_read_header", read_header, SLEEP_STACK_READ_HEADER, 0},
    {"sleep_read_node", read_node, SLEEP_STACK_READ_NODE, 0},
    {"sleep_header_of", header_of, SLEEP_STACK_HEADER_OF, 0},
    {"sleep_node_of", node_of, SLEEP_STACK_NODE_OF, 0},
    {"sleep_find", find, SLEEP_STACK_FIND, 0},
    {"sleep_make_copy", make_copy, SLEEP_STACK_MAKE_COPY, 0},
    {"sleep_take_in", take_in, SLEEP_STACK_TAKE_IN, 0},
    {"sleep_copy_audit", copy_audit, SLEEP_STACK_COPY_AUDIT, 0},
    {"sleep_copy_root_hash", copy_root_hash, SLEEP_STACK_COPY_ROOT_HASH, 0},
    {"sleep_copy_old_root", copy_old_root, SLEEP_STACK_COPY_OLD_ROOT, 0},
    {"sleep_copy_stored_leaf", copy_stored_leaf, SLEEP_STACK_COPY_STORED_LEAF, 0},
    {"sleep_copy_place", copy_place, SLEEP_STACK_COPY_PLACE, 0},
    {"sleep_copy_byte", copy_byte, SLEEP_STACK_COPY_BYTE, 0},
    {"sleep_copy_read", copy_read, SLEEP_STACK_COPY_READ, 0},
    {"sleep_copy_release", copy_release, SLEEP_STACK_COPY_RELEASE, 0},
    {"sleep_copy_search", copy_search, SLEEP_STACK_COPY_SEARCH, 0},
    {"sleep_copy_short_place", copy_short_place, SLEEP_STACK_COPY_SHORT_PLACE, 0},
    {"sleep_copy_short_byte", copy_short_byte, SLEEP_STACK_COPY_SHORT_BYTE, 0},
    {"sleep_copy_short_search", copy_short_search, SLEEP_STACK_COPY_SHORT_SEARCH, 0},
    {"sleep_copy_make_packet", copy_make_packet, SLEEP_STACK_COPY_MAKE_PACKET, 0},
    {"sleep_copy_header_of", copy_header_of, SLEEP_STACK_COPY_HEADER_OF, 0},
    {"sleep_copy_node_of", copy_node_of, SLEEP_STACK_COPY_NODE_OF, 0},
    {"sleep_copy_find", copy_find, SLEEP_STACK_COPY_FIND, 0},
    {"sleep_journal_begin", journal_begin, SLEEP_STACK_JOURNAL_BEGIN, 0},
    {"sleep_journal_put", journal_put, SLEEP_STACK_JOURNAL_PUT, 0},
    {"sleep_journal_end", journal_end, SLEEP_STACK_JOURNAL_END, 0},
    {"sleep_journal_check", journal_check, SLEEP_STACK_JOURNAL_CHECK, 0},
    {"sleep_journal_states", journal_states, SLEEP_STACK_JOURNAL_STATES, 0},
    {"sleep_journal_between", journal_between, SLEEP_STACK_JOURNAL_BETWEEN, 0},
    {"sleep_journal_next", journal_next, SLEEP_STACK_JOURNAL_NEXT, 0},
    {"sleep_audit_tree_part", audit_tree_part, SLEEP_STACK_AUDIT_TREE_PART, 0},
    {"sleep_audit_bitfield_part", audit_bitfield_part, SLEEP_STACK_AUDIT_BITFIELD_PART, 0},
    {"sleep_copy_audit_tree_part", copy_audit_tree_part, SLEEP_STACK_COPY_AUDIT_TREE_PART, 0},
    {"sleep_copy_audit_bitfield_part", copy_audit_bitfield_part, SLEEP_STACK_COPY_AUDIT_BITFIELD_PART, 0},
    {"sleep_compare_held_part", compare_held_part, SLEEP_STACK_COMPARE_HELD_PART, 0},
    {"sleep_compare_roots_part", compare_roots_part, SLEEP_STACK_COMPARE_ROOTS_PART, 0},
    {"sleep_compare_walk_part", compare_walk_part, SLEEP_STACK_COMPARE_WALK_PART, 0},
};

/* One call on the painted stack. The frame that makes the call counts too, so the figure is never too low. */
static void measure(int which, uint64_t expected) {
    static _Alignas(64) uint8_t stack[STACK];
    static ucontext_t here, there;
    static size_t left;
    memset(stack, PAINT, STACK);
    getcontext(&there);
    there.uc_stack.ss_sp = stack;
    there.uc_stack.ss_size = STACK;
    there.uc_link = &here;
    number = 0;
    makecontext(&there, calls[which].call, 0);
    swapcontext(&here, &there);
    for (left = 0; left < STACK && stack[left] == PAINT;) left++;
    if (STACK - left > calls[which].taken) calls[which].taken = STACK - left;
    if (number != expected) {
        printf("%s at n = %" PRIu64 ": answered %" PRIu64 ", expected %" PRIu64 "\n", calls[which].name, n, number, expected);
        exit(1);
    }
}

/* The chunk that is sought, released; then its bitfield entry and its bytes are put back. */
static void measure_release(void) {
    static uint8_t entry[3328], bytes[SLEEP_LONGEST_CHUNK];
    uint8_t *const bits = bitfield + 32 + 3328 * (sought / 8192);
    uint64_t at, length;
    measure(PLACE, 0);
    at = out[0];
    length = out[1];
    memcpy(entry, bits, sizeof entry);
    memcpy(bytes, data + at, length);
    measure(RELEASE, 0);
    measure(RELEASE, 18);
    measure(SEARCH, 0);
    measure(READ, 18);
    measure(MAKE_PACKET, 18);
    measure(COMPARE, 0);
    memcpy(bits, entry, sizeof entry);
    memcpy(data + at, bytes, length);
}

/* The register lent as a copy: the chunk that is sought, released and taken in again. */
static void measure_return(void) {
    measure(COPY_MAKE_PACKET, 0);
    measure(TAKE_IN, 0);
    measure(COPY_RELEASE, 0);
    measure(COPY_RELEASE, 18);
    measure(COPY_SEARCH, 0);
    measure(COPY_READ, 18);
    measure(COPY_AUDIT, 0);
    measure(TAKE_IN, 0);
    measure(COPY_READ, 0);
}

/* Every call that reads a copy, for the chunk that is sought. */
static void measure_copied(void) {
    measure(COPY_OLD_ROOT, 0);
    measure(COPY_SEARCH, 0);
    measure(COPY_SHORT_SEARCH, 0);
    measure(COPY_STORED_LEAF, sought < n ? 0 : 9);
    measure(COPY_PLACE, sought < n ? 0 : 9);
    measure(COPY_SHORT_PLACE, sought < n ? 0 : 9);
    measure(COPY_READ, sought < n ? 0 : 9);
    measure(COPY_MAKE_PACKET, sought < n ? 0 : 9);
    if (sought < n) measure_return();
    else measure(COPY_RELEASE, 9);
}

/* Every call that reads the register, for the first, a middle, the last and no chunk. */
static void measure_reads(void) {
    const uint64_t some[4] = {0, n / 2, n - 1, n};
    measure(ROOT_HASH, 0);
    measure(AUDIT, 0);
    measure(COMPARE, 0);
    measure(COPY_ROOT_HASH, 0);
    measure(COPY_AUDIT, 0);
    measure(AUDIT_BITFIELD_PART, 0);
    measure(COPY_AUDIT_BITFIELD_PART, 0);
    measure(COMPARE_HELD_PART, 0);
    measure(COMPARE_ROOTS_PART, 0);
    for (int k = 0; k < 3; k++) {
        sought = k * (n - 1);
        measure(AUDIT_TREE_PART, 0);
        measure(COPY_AUDIT_TREE_PART, 0);
        measure(COMPARE_WALK_PART, 0);
    }
    for (int k = 0; k < 4; k++) {
        sought = some[k];
        measure_copied();
        measure(OLD_ROOT, 0);
        measure(SEARCH, 0);
        measure(SHORT_SEARCH, 0);
        if (sought < n) measure_release();
        else measure(RELEASE, 9);
        measure(STORED_LEAF, sought < n ? 0 : 9);
        measure(VERSION, 0);
        measure(PLACE, sought < n ? 0 : 9);
        measure(SHORT_PLACE, sought < n ? 0 : 9);
        measure(READ, sought < n ? 0 : 9);
        measure(FRESH, 0);
        measure(SERVE, 0);
        measure(ENTER, sought % 17 < SLEEP_STATIONS ? 0 : 21);
        measure(SERVE, sought < n || sought % 17 == SLEEP_STATIONS ? 0 : 9);
        measure(MAKE_PACKET, sought < n ? 0 : 9);
        if (sought < n) measure(CHECK_PACKET, 0);
        measure(COMPARE_PACKETS, sought < n ? 0 : 9);
        sought = k < 3 && size > 0 ? some[k] * (size - 1) / n : size;
        measure(BYTE, 0);
        measure(SHORT_BYTE, 0);
        measure(COPY_BYTE, 0);
        measure(COPY_SHORT_BYTE, 0);
        sought = size + 1;
        measure(BYTE, 9);
        measure(SHORT_BYTE, 9);
        measure(COPY_BYTE, 9);
        measure(COPY_SHORT_BYTE, 9);
    }
}

/* A wrong byte in the last leaf's hash and in the bitfield's last byte. */
static void measure_damage(void) {
    uint8_t *const wrong[2] = {tree + 32 + 40 * (2 * n - 2), bitfield + 32 + 3328 * ((n + 8191) / 8192) - 1};
    for (int k = 0; k < 2; k++) {
        *wrong[k] ^= 1;
        measure(AUDIT, k == 0 ? 10 : 11);
        measure(COPY_AUDIT, k == 0 ? 10 : 11);
        measure(COMPARE, 0);
        sought = n - 1;
        measure(AUDIT_TREE_PART, k == 0 ? 10 : 0);
        measure(AUDIT_BITFIELD_PART, k == 0 ? 0 : 11);
        measure(COPY_AUDIT_TREE_PART, k == 0 ? 10 : 0);
        measure(COPY_AUDIT_BITFIELD_PART, k == 0 ? 0 : 11);
        sought = n - 1;
        measure(COPY_READ, k == 0 ? 10 : 0);
        measure(READ, k == 0 ? 10 : 0);
        measure(FRESH, 0);
        measure(ENTER, sought % 17 < SLEEP_STATIONS ? 0 : 21);
        measure(SERVE, k == 0 && sought % 17 < SLEEP_STATIONS ? 10 : 0);
        *wrong[k] ^= 1;
    }
}

/* Lists of the most chunks and of two; while a signature is owed they are refused. */
static void measure_lists(void) {
    for (listed = SLEEP_MOST_LISTED; listed > 0; listed = listed > 2 ? 2 : 0) {
        for (uint64_t k = 0; k < listed; k++) lengths[k] = k % 3;
        for (chunk_length = 0, sought = 0; sought < listed; sought++) chunk_length += lengths[sought];
        measure(APPEND_LIST, 0);
        n += listed;
        s += listed - 1;
        size += chunk_length;
        measure(APPEND_LIST, 8);
        measure(STORE_SIGNATURE, 0);
        s += 1;
    }
}

/* A register from nothing, chunk by chunk, with lists in between. */
static void grow(void) {
    measure(START, 0);
    while (n < GROWN) {
        if (n == 100 || n == 16000) measure_lists();
        chunk_length = n == 1 || n == 8191 || n == GROWN - 2 ? sizeof chunk : n % 8;
        chunk[0] = (uint8_t)n;
        measure(PREVIEW, 0);
        measure(APPEND, 0);
        n += 1;
        size += chunk_length;
        measure(APPEND, 8);
        measure(STORE_SIGNATURE, 0);
        s += 1;
        if (n < 8 || n % 8192 == 8191 || n % 8192 < 3) {
            measure_reads();
            measure_damage();
        }
    }
}

/* The tree of MOST chunks, where chunk 0 has one byte and all others none: only the lengths above chunk 0 and its leaf hash are there. A
 * lookup goes all the way down; a packet has all siblings, whose hashes don't give the root hash. */
static void measure_depth(void) {
    static const uint8_t one[9] = {0, 0, 0, 0, 0, 0, 0, 0, 1};
    memset(tree, 0, 32 + 80 * GROWN);
    n = s = MOST;
    size = 1;
    start();
    sleep_hash_parts(NULL, 0, one, sizeof one, data, 1, tree + 32);
    for (uint64_t block = 1; block <= MOST; block *= 2) tree[32 + 40 * (block - 1) + 39] = 1;
    measure(ROOT_HASH, 0);
    for (sought = 0; sought < n; sought += n - 1) {
        measure(PLACE, 0);
        measure(SHORT_PLACE, 0);
    }
    sought = 0;
    measure(BYTE, 0);
    measure(SHORT_BYTE, 0);
    measure(READ, 0);
    measure_release();
    measure(FRESH, 0);
    measure(ENTER, 0);
    measure(SERVE, 0);
    measure(HEADER_OF, 15);
    measure(NODE_OF, 15);
    measure(FIND, 15);
    measure(MAKE_PACKET, 0);
    measure(CHECK_PACKET, 13);
    measure(APPEND, 2);
    measure(STORE_SIGNATURE, 8);
    n = s = MOST - 1;
    measure(ROOT_HASH, 0);
    measure(READ, 0);
    measure(MAKE_PACKET, 0);
    measure(CHECK_PACKET, 13);
    measure(AUDIT, 10);
    measure(COMPARE, 0);
    measure(PREVIEW, 0);
    listed = 2;
    chunk_length = lengths[0] + lengths[1];
    measure(APPEND_LIST, 2);
    listed = 1;
    chunk_length = lengths[0];
    measure(APPEND_LIST, 0);
    measure(APPEND, 0);
}

/* The packet of chunk 0, one byte, of a register whose other chunks are empty, with zero entries beside it and beside the root above it; its root hash. */
static void forge(void) {
    uint8_t hashes[1 + 8 + 64] = {0}, roots[1 + 20 * 48] = {2};
    uint64_t block = 1, depth = 0, count = 0;
    hashes[8] = 1;
    sleep_hash_parts(NULL, 0, hashes, 9, chunk, 1, hashes + 9);
    for (hashes[0] = 1; 2 * block <= n; block *= 2, depth++) {
        uint8_t above[32];
        sleep_hash_parts(NULL, 0, hashes, sizeof hashes, NULL, 0, above);
        memcpy(hashes + 9, above, 32);
    }
    for (uint64_t first = 0; first < n; first += block, count++) {
        while (block > n - first) block /= 2;
        for (int k = 0; k < 8; k++) roots[1 + 48 * count + 32 + k] = (uint8_t)((2 * first + block - 1) >> (56 - 8 * k));
    }
    memcpy(roots + 1, hashes + 9, 32);
    roots[48] = 1;
    sleep_hash_parts(NULL, 0, roots, 1 + 48 * count, NULL, 0, root);
    memset(packet, 0, sizeof packet);
    packet[3] = 1;
    packet[4] = chunk[0];
    packet[5] = (uint8_t)depth;
    packet[6 + 40 * depth] = (uint8_t)(count - 1);
    packet_length = 7 + 40 * (depth + count - 1);
}

/* A copy of the greatest depth, and one with the most roots, that took in chunk 0. */
static void measure_copies(void) {
    for (n = MOST; n >= MOST - 1; n--) {
        size = 1;
        sought = 0;
        measure(MAKE_COPY, 0);
        measure(COPY_AUDIT, 0);
        measure(COPY_PLACE, 20);
        forge();
        measure(TAKE_IN, 0);
        measure(COPY_ROOT_HASH, 0);
        measure(COPY_AUDIT, 0);
        measure_copied();
        measure(COPY_BYTE, 0);
        measure(COPY_SHORT_BYTE, 0);
        measure(COPY_HEADER_OF, 15);
        measure(COPY_NODE_OF, 15);
        sought = n - 1;
        measure(COPY_OLD_ROOT, n == MOST ? 20 : 0);
        measure(COPY_PLACE, n == MOST ? 20 : 0);
        measure(COPY_READ, 18);
        measure(COPY_FIND, 15);
        sought = n;
        measure(COPY_OLD_ROOT, 0);
    }
}

/* The largest number that a field may have. */
static sleep_number most(uint64_t value) { return (sleep_number){1, value}; }

/* The longest Node, whose parts begin with the chunk's first byte, a slash, and one past a bound; then a register of a Header and such Nodes. */
static void measure_records(void) {
    const sleep_number word = most(UINT32_MAX), longest = most(UINT64_MAX);
    chunk[0] = '/';
    node = (sleep_node){{0, 255}, {1, word, word, word, longest, longest, longest, longest, longest, longest}, {1, {0, 1024}}, 8, {{{0}, {0}}}, longest};
    for (int k = 0; k < 8; k++) node.writers[k] = (sleep_writer){{0, 32}, {1, {0, 16}}};
    measure(START, 0);
    for (n = s = size = 0; n < 4;) {
        measure(n == 0 ? WRITE_HEADER : WRITE_NODE, 0);
        measure(READ_HEADER, n == 0 ? 0 : 15);
        measure(READ_NODE, n == 0 ? 15 : 0);
        sleep_append(REGISTER, packet, packet_length, root);
        n += 1;
        size += packet_length;
        sleep_store_signature(REGISTER, digest);
        s += 1;
        for (sought = 0; sought < n; sought++) {
            measure(HEADER_OF, sought == 0 ? 0 : 15);
            measure(NODE_OF, sought == 0 ? 15 : 0);
            measure(COPY_HEADER_OF, sought == 0 ? 0 : 15);
            measure(COPY_NODE_OF, sought == 0 ? 15 : 0);
        }
        measure(FIND, 0);
        measure(COPY_FIND, 0);
    }
    node.writers[7].key.length = 33;
    measure(WRITE_NODE, 15);
    n = s = size = 0;
}

/* Made and read, and read again with a byte changed. */
static void measure_journals(void) {
    measure(JOURNAL_BEGIN, 0);
    at = 184;
    measure(JOURNAL_PUT, 0);
    at += 18 + 64;
    measure(JOURNAL_END, 0);
    packet_length = at + 32;
    measure(JOURNAL_CHECK, 0);
    measure(JOURNAL_STATES, 0);
    measure(JOURNAL_BETWEEN, 0);
    measure(JOURNAL_NEXT, 0);
    packet[at] ^= 1;
    measure(JOURNAL_CHECK, 7);
    packet[185] = 5;
    measure(JOURNAL_CHECK, 5);
    measure(JOURNAL_NEXT, 5);
}

/* With the word `figures` the figures are printed, and not held to the header's. */
int main(int words, char **word) {
    const int judged = words < 2 || strcmp(word[1], "figures") != 0;
    int failed = 0;
    measure_records();
    measure(HASH, 0);
    measure(HASH_PARTS, 0);
    measure(LABEL, 0);
    measure(GROUP, 0);
    measure(UNGROUP, 0);
    for (int k = 0; k < 256; k++) lengths[k] = SLEEP_LONGEST_CHUNK;
    for (sought = 0; sought <= MOST; sought += MOST / 4 - 64) measure(NEEDS, sought + 256 <= MOST ? 0 : 2);
    grow();
    measure_depth();
    measure_copies();
    measure_journals();
    for (int k = 0; k < CALLS; k++) {
        printf("%-24s %5zu of %5zu bytes of stack\n", calls[k].name, calls[k].taken, calls[k].most);
        if (judged && calls[k].taken > calls[k].most) failed = 1;
    }
    return failed;
}
