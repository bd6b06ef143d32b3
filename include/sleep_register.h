/* SLEEP registers: the C interface of the proved library libsleep_register.a, which tools/archive-for writes for x86-64, aarch64 and riscv64 (for x86-64
 * it is also target/staticlib/libc_api.a, of `make -C examples archive`).
 *
 * CONTENTS
 *   THE REGISTER; HELD AND RELEASED CHUNKS; PARTIAL COPIES; THE BUFFERS; PARTS; RECORDS; WAITING READS
 *   THREADS, POWER, TIME
 *   WHAT FIRMWARE HAS TO PROVIDE
 *   ANSWERS AND REFUSALS, with the list of numbers
 *   limits (SLEEP_MOST_..), stack (SLEEP_STACK_..), types, then the calls:
 *     hash          sleep_hash, sleep_hash_parts, sleep_label
 *     write         sleep_start, sleep_append, sleep_append_list, sleep_preview, sleep_store_signature, sleep_release
 *     judge         sleep_audit, sleep_compare
 *     root hashes   sleep_root_hash, sleep_old_root
 *     entries       sleep_stored_leaf
 *     find, read    sleep_place, sleep_byte, sleep_read, sleep_search, sleep_short_place, sleep_short_byte, sleep_short_search
 *     packets       sleep_make_packet, sleep_check_packet, sleep_compare_packets
 *     coordinates   sleep_group, sleep_ungroup
 *     needs         sleep_needs
 *     stations      sleep_fresh, sleep_enter, sleep_serve
 *     records       sleep_write_header, sleep_write_node, sleep_read_header, sleep_read_node, sleep_header_of, sleep_node_of, sleep_find
 *     copies        sleep_make_copy, sleep_take_in, sleep_copy_audit, and sleep_copy_.. for each call above that reads
 *     journal       sleep_journal_begin, sleep_journal_put, sleep_journal_end, sleep_journal_check, sleep_journal_states, sleep_journal_between,
 *                   sleep_journal_next
 *     version       SLEEP_VERSION, sleep_version
 *
 * THE REGISTER
 *   A register is four images, which the caller keeps in buffers of its own, and three numbers, which the caller keeps too:
 *     n     the count of chunks, at most 1,048,576
 *     s     the count of stored signatures: n, or n - 1 while the newest chunk's signature is owed
 *     size  the count of data bytes
 *   No call changes n, s or size: after a done append the caller adds 1 to n and the chunk's length to size, after a done signature
 *   1 to s, after a done list of k chunks k to n, k - 1 to s and the bytes lent to size. A release changes none of the three. No call keeps
 *   memory of its own, allocates, reads or writes a file, or waits: each ends, on every input.
 *
 * HELD AND RELEASED CHUNKS
 *   A chunk is held while its data bit in the bitfield is 1, and an append makes it so. sleep_release makes room: it clears the bit and writes
 *   zeros over the chunk's bytes, as many as before, so no other chunk moves. The tree entries stay, and with them the root hash, old root hashes
 *   and the packets of other chunks. A released chunk still has its place, and can't be read, packed, released or compared here (18).
 *
 * PARTIAL COPIES
 *   A copy holds a few chunks of a large register. It is three images, tree, bitfield and data, as long as the register's and laid out alike, and two
 *   numbers, the register's n and size; it has no signatures and no s. An entry of its tree is known while its tree bit in the bitfield is 1; a chunk is held
 *   while its data bit is, as in a register. sleep_make_copy begins one, of which nothing is known and all is zeros. sleep_take_in takes in a packet,
 *   checked against the register's root hash: it makes the entries known that the packet gives or leads to, and the chunk held. No call changes
 *   n or size.
 *   Every call that reads a register, but for comparisons and servings, and the release, has its form for a copy, sleep_copy_.., which answers 20 where it
 *   would go by an entry that is not known. A copy takes no appends, signatures or comparisons. A register's tree, bitfield and data may be lent as a copy too: so a chunk that was
 *   released comes back, by a packet of it. Then what the register's tree bits say to be known is held to the packet (19).
 *
 * THE BUFFERS
 *   Each is a pointer and a length in bytes, and may hold anything: what it holds is checked before it is used. The length may be larger
 *   than what is used; no byte behind the used size is looked at. Used sizes, for n chunks, s signatures and size data bytes:
 *     tree        32 + 40 (2n - 1) bytes, 32 for n = 0     header, then an entry (32-byte hash, 8-byte length) for each tree index
 *     signatures  32 + 64 s bytes                          header, then the signatures
 *     bitfield    32 + 3328 (n / 8192, rounded up) bytes   header, then an entry for every 8,192 chunks
 *     data        size bytes                               the chunks one behind another, without a header
 *   An append needs room for n + 1 chunks in tree and bitfield and for the new chunk in data; a signature needs room for s + 1. A list of
 *   k chunks needs room for n + k chunks, for n + k - 1 signatures and for all its bytes. They may lend buffers that hold anything behind
 *   the used sizes.
 *   All numbers in the images and in packets are big-endian. All numbers of this interface are plain uint64_t or size_t. A root hash has 32
 *   bytes and a signature 64; no call takes others.
 *
 *   What the caller owes, since no callee can check it:
 *     - the length beside a pointer, in bytes, or in numbers for a list of lengths, is what may be read there (and, where it is not const,
 *       written). Where the length is 0 the pointer is not looked at and may be NULL. A pointer without a length beside it (a hash, a
 *       signature, a number or two) is never NULL;
 *     - a buffer or a result that a call writes (every parameter that is not const) overlaps no other buffer and no other result of
 *       that call. So a chunk to append doesn't lie in the data buffer, and a packet isn't made in an image. Buffers that are only read
 *       may overlap: one register may be compared with itself.
 *
 * PARTS
 *   No call hands out a pointer. A part of a lent buffer is given as two numbers, out[0] and out[1]: the offset of its first byte, counted
 *   from the start of that buffer, and its length in bytes. It is buffer[out[0]] up to, and without, buffer[out[0] + out[1]], which lies
 *   within the buffer, but for two calls: what sleep_short_place and sleep_copy_short_place give may lie OUTSIDE data, wholly or in part, on
 *   images that no audit accepted. (A copy of 2 chunks and 4 bytes whose root says 4 and whose leaves say 60,000 and 9: chunk 1 is answered
 *   60,000 and 9.) Compare out[0] + out[1] with size before you follow it, or audit first. A part of length 0 is an empty chunk, which is no refusal. Of sleep_place and sleep_read the buffer is data, so
 *   the offset is the count of bytes of all chunks before it; of sleep_check_packet it is the packet; of sleep_serve it is the data of the
 *   register that the answer names; of sleep_read_header the bytes lent, and of sleep_header_of the bytes of the chunk, whose place in data
 *   sleep_place gives. The parts of a Node are of the bytes lent or of the chunk likewise.
 *
 * AUDITS IN PARTS
 *   An audit of many chunks can be cut: sleep_audit_tree_part judges the tree entries from `from` on and before `to`, sleep_audit_bitfield_part the
 *   bitfield's entries of a range, and sleep_copy_audit_.._part do so on a copy. A part makes the audit's checks first and finds the start of its first
 *   leaf itself; it writes nothing, so that parts may run at the same time on threads, in any order, and overlap. Ranges that are empty, turned round or
 *   outside are done behind the checks. n chunks have 2n - 1 tree entries (none for n = 0) and n / 8192, rounded up, entries in the bitfield.
 *   What parts say together is the answer with the lowest number, and of one number the lowest place, whichever part named it: sleep_earlier of
 *   two. Where the ranges cover both files, and there is at least one part (n = 0 too: it makes the checks), that is what sleep_audit answers:
 *       threads k = 0 .. T - 1:  part[k] = sleep_audit_tree_part(.., entries * k / T, entries * (k + 1) / T)
 *       meanwhile:               whole = sleep_audit_bitfield_part(.., 0, (n + 8191) / 8192)
 *       at the end:              for each k: whole = sleep_earlier(whole, part[k])
 *   A part costs what its chunks cost to hash, and a walk over the lengths of the leaves before it, so a few parts for each thread are plenty.
 *   To stop and go on later, keep how far every range came, with n, size and the root hash, and judge the other ranges then: together they give what
 *   sleep_audit answers of files that were not changed in between. Nothing here tells whether they were.
 *   A comparison is cut alike: sleep_compare_held_part of the first register, its audit's parts, and where these are done the same of the second. Where
 *   all is done, sleep_compare_roots_part; and where that says SLEEP_EQUAL, parts of sleep_compare_walk_part whose ranges cover the tree entries, of which
 *   the lowest place counts. In this order they give what sleep_compare answers (CompareInPartsForAll, crates/theorem_parts/specs/Whole.antt).
 *
 * RECORDS
 *   The chunks of a metadata register are records (FORMAT.md, "Records"): chunk 0 a Header, every later chunk a Node, which gives a piece its
 *   path. A Node is handed over and given as a sleep_node: numbers alone. A field that may be absent says by `given` whether it is there, 0 or
 *   1 (any other number is taken as 1), so that an absent one is told from one that is there and empty or 0; where it is absent its other
 *   numbers are given as 0, and not looked at when they are handed over. Parts lie in the bytes lent beside the Node, and may overlap. What was
 *   read can be handed to the writer as it is, beside the same bytes: it writes those bytes again. Of the writers, `count` are there, at most
 *   8. A Header has SLEEP_HEADER_BYTES bytes, and SLEEP_NODE_ROOM bytes are room for any Node.
 *
 * WAITING READS
 *   Reads of 16 stations, 0 to 15, wait in a table, at most 4 of each, first come first. The table is SLEEP_TABLE_NUMBERS numbers, which the
 *   caller keeps; sleep_fresh begins one. It may hold anything: every content is read as a table, so that every call has an answer. Its numbers:
 *     0 to 15     how many reads wait for each station, 4 where the number is larger
 *     16 to 31    at which of its 4 places each station's first read stands, modulo 4; the others follow, going round
 *     32 to 95    the register that each read names, station s's place p at 32 + 4 s + p: 0 metadata, any other number content
 *     96 to 159   its chunk number, at 96 + 4 s + p
 *     160         the station last served, modulo 16
 *
 * THREADS, POWER, TIME
 *   Threads: a call keeps nothing between two calls and has no memory of its own. So calls may run at once, on threads of their own, over
 *   buffers that nobody writes meanwhile, the same ones too; a buffer or a result that a call writes is that call's alone while it runs.
 *   Power: a call that writes is not atomic. If the machine stops in the middle of one, each byte that it writes may be the old or the new
 *   one, in any mixture: neither the register before nor the one after. (An append fills holes of the tree and sets bits inside the used
 *   sizes, not only behind them.) Images that outlive a loss of power are changed in a copy that then takes their place, or under a journal
 *   as sleep-archive does it; after a stop, sleep_audit tells. Calls that only read change nothing but their results.
 *   Time: every call ends. sleep_audit and sleep_compare take time in n and in the data; sleep_copy_audit too. sleep_find reads the records
 *   from the latest down to the one that it finds, so a name that is not there, or was written long ago, takes time in n; so do the short
 *   lookups, sleep_short_search, and sleep_search (which passes over 16 held chunks at a time). sleep_make_copy writes all used bytes.
 *   sleep_append_list and sleep_needs take time in their lists. All others take time in the chunk's length and in the depth of the tree, at
 *   most 20. Figures: docs/FIGURES.md.
 *
 * WHAT FIRMWARE HAS TO PROVIDE
 *   Code with its read-only constants, at most, in bytes: x86-64 96,000; x86-64-v3 100,000; aarch64 84,000; aarch64-strict 136,000; riscv64 124,000;
 *   riscv64-soft 124,000; s390x 155,000; armv7 136,000. The archive has no variables: no static data, zeroed or not, and nothing to set up. From outside
 *   it needs memcpy, memset, memmove and memcmp at most; it allocates nothing. The stack that each call takes at most, counted from the caller's frame,
 *   with arguments, return address and what memcpy or memset takes, is SLEEP_STACK_.. below.
 *   tests/run and tests/targets hold the archive to all of this, the stack by calls on a painted one.
 *   Buffers of bytes may lie at any address, arrays of uint64_t at multiples of 8. The archive for aarch64 uses SIMD registers and unaligned accesses, so
 *   the FPU must be on and memory mapped as normal; aarch64-strict does neither, for firmware before its MMU and FPU are on. No floating-point number
 *   goes in or out. In instructions, those of memcpy and memset with them: a block of the hash, 128 bytes, takes some 1,680 on x86-64, 1,560 on aarch64,
 *   2,020 on aarch64-strict and 3,110 on riscv64; an append of 64 bytes behind 1,000 chunks 20,300, 16,700, 21,900 and 31,100.
 *
 * ANSWERS AND REFUSALS
 *   A call is done (number 0) or refused. A refused call changes no byte of any buffer, and no result that is lent to it; a serving whose
 *   read is refused is a serving all the same, and the read has left the table. The checks of one register, copy, packet, record
 *   or chunk are made in the order of this list, and the first that fails is the answer. A call that judges several judges one after the
 *   other, each by the whole list: sleep_compare the first register, then the second (the first's 11 comes before the second's 2);
 *   sleep_compare_packets the first packet, then the second; sleep_find chunk 0, then the records from the latest down (chunk 0's 15 comes
 *   before a later chunk's 18). Each call's own order stands at the call, and docs/FORMAT.md, "The order of checks", has them all.
 *
 *     number  meaning                                                                      place
 *     0       done                                                                         none
 *     1       the hash length isn't 1 to 64                                                none
 *     17      the key is longer than 64 bytes                                              none
 *     2       n is above 1,048,576, an append finds n at 1,048,576, or n and the chunks
 *             of a list or a job together pass it                                          none
 *     3       s is neither n nor n - 1, or is not 0 when n is 0                            none
 *     4       a buffer is shorter than its used size                                       none
 *     5       a header differs from its 32 bytes                                           none
 *     20      a call on a copy, but for the taking in and the audit, meets a root that is
 *             not known (the first from the left)                                          tree index
 *     6       the stored root lengths don't add up to size; taking in and the audit of
 *             a copy pass over it while a root is unknown                                  none
 *     16      a list has more than 256 chunks; to append, no chunks, or lengths that
 *             don't add up to the bytes lent                                               none
 *     7       a chunk to append or of a job, or the bytes to group or ungroup, are longer
 *             than 65,536 bytes                                                            none
 *     8       an append while a signature is owed, or a signature while none is            none
 *     9       the chunk number is not below n, the byte offset is above size, the count of
 *             first chunks is above n, or the size told of a job is above 65,536 n         none
 *     18      a chunk that is to be read, packed, released or compared is not held (the
 *             lowest for a comparison, which judges this just before 10)                   tree index of its leaf
 *     10      a lookup meets wrong lengths, a read another leaf hash, or the audit
 *             a wrong tree entry (the lowest)                                              tree index
 *     20      a call on a copy comes to another entry that is not known, the left child of
 *             a parent before the right one, and both before the parent's 10               tree index
 *     11      the audit finds a wrong byte in the bitfield (the lowest)                    byte offset in the bitfield image
 *     12      a packet's counts aren't those of n and the chunk number, its chunk is
 *             over 65,536 bytes, or bytes lack or remain                                   none
 *     13      a packet's lengths add up to over 68,719,476,736, or its root hash differs   none
 *     6       the lengths of a packet to be taken in don't add up to the copy's size       none
 *     19      a packet to be taken in gives or leads to an entry that is known as another,
 *             or its chunk is held with other bytes, which counts at its leaf (the lowest) tree index
 *     15      fields to be written are out of their bounds, or bytes are no record as
 *             sleep_write_.. writes it                                                     none, or the tree index of a chunk's leaf
 *     14      a buffer to be written is shorter than the result needs; a preview judges
 *             the buffers that the append would write                                      none
 *     21      the station is above 15                                                      none
 *     22      four reads of the station wait already                                       none
 *
 *   1, 17, 2 to 4, 16, 7 to 9, 14, 21, 22 and 15 without a place point at the call: a number, a field or a buffer that doesn't fit. 5 and 6 mean that
 *   the images are not those of a register with these numbers: other files, other numbers, or damage; 6 of a packet to be taken in means that it is of a
 *   register of another size. 18 means that the chunk was released here, or never taken in; the office may have it. 20 means that no packet was taken in
 *   that shows this entry. 10 and 11 mean damage where the place says. 12 and 13 mean that a packet shows nothing of this chunk under this root hash. 19 means
 *   that packet and copy contradict each other: they are of different registers, or the copy is damaged where the place says. 15 with a place means
 *   that a chunk, though undamaged, is no record.
 */
#ifndef SLEEP_REGISTER_H
#define SLEEP_REGISTER_H

#include <stddef.h>
#include <stdint.h>

#ifdef __cplusplus
extern "C" {
#endif

/* The version of this header: 1,000,000 times its first number, which rises where a caller has to change something, and 1,000 times its second. sleep_version
 * tells that of the archive that is linked. docs/CHANGELOG.md has what each brought. */
#define SLEEP_VERSION 3051000u

#define SLEEP_MOST_CHUNKS 1048576u
#define SLEEP_LONGEST_CHUNK 65536u
#define SLEEP_MOST_LISTED 256u
#define SLEEP_STATIONS 16u
#define SLEEP_MOST_WAITING 4u
#define SLEEP_TABLE_NUMBERS 161u

#define SLEEP_HEADER_BYTES 46u
#define SLEEP_CONTENT_BYTES 32u
#define SLEEP_NODE_ROOM 2070u
#define SLEEP_NODE_NUMBERS 67u
#define SLEEP_LONGEST_PATH 255u
#define SLEEP_LONGEST_TRIE 1024u
#define SLEEP_MOST_WRITERS 8u
#define SLEEP_KEY_BYTES 32u
#define SLEEP_LONGEST_PERMISSION 16u

/* What a packet has beside its chunk's bytes, at most: a buffer of the chunk's length and this many bytes never lacks room for it
 * (proved: PacketStaysShort, crates/packet/specs/Theorems.antt). */
#define SLEEP_PACKET_EXTRA 1526u

/* The most stack that a call takes, in bytes, on x86-64, aarch64 and riscv64; the largest frames are those of riscv64. A lookup goes down the tree by
 * recursion, 100 to 200 bytes for each level and at most 20 levels. Calls that give or judge a root hash have the roots and the root message in arrays
 * with room for 20 roots, some 1 KiB each, which are passed by value; the comparing walk has two root messages at once. A Node is a struct of some 500
 * bytes, passed by value, and is written into an array of SLEEP_NODE_ROOM bytes before it is known to have room. */
#define SLEEP_STACK_START 512u
#define SLEEP_STACK_NEEDS 512u
#define SLEEP_STACK_ENTER 512u
#define SLEEP_STACK_FRESH 512u
#define SLEEP_STACK_GROUP 512u
#define SLEEP_STACK_UNGROUP 512u
#define SLEEP_STACK_WRITE_HEADER 512u
#define SLEEP_STACK_READ_HEADER 512u
#define SLEEP_STACK_JOURNAL_BEGIN 512u
#define SLEEP_STACK_JOURNAL_PUT 512u
#define SLEEP_STACK_JOURNAL_STATES 512u
#define SLEEP_STACK_JOURNAL_NEXT 512u
#define SLEEP_STACK_VERSION 512u
#define SLEEP_STACK_STORE_SIGNATURE 2048u
#define SLEEP_STACK_STORED_LEAF 2048u
#define SLEEP_STACK_COPY_STORED_LEAF 2048u
#define SLEEP_STACK_SEARCH 2048u
#define SLEEP_STACK_SHORT_PLACE 2048u
#define SLEEP_STACK_SHORT_BYTE 2048u
#define SLEEP_STACK_SHORT_SEARCH 2048u
#define SLEEP_STACK_JOURNAL_BETWEEN 2048u
#define SLEEP_STACK_HASH 3072u
#define SLEEP_STACK_HASH_PARTS 3072u
#define SLEEP_STACK_LABEL 3072u
#define SLEEP_STACK_JOURNAL_END 3072u
#define SLEEP_STACK_JOURNAL_CHECK 3072u
#define SLEEP_STACK_AUDIT 3072u
#define SLEEP_STACK_PLACE 7168u
#define SLEEP_STACK_BYTE 7168u
#define SLEEP_STACK_READ 7168u
#define SLEEP_STACK_RELEASE 7168u
#define SLEEP_STACK_SERVE 7168u
#define SLEEP_STACK_CHECK_PACKET 8192u
#define SLEEP_STACK_HEADER_OF 8192u
#define SLEEP_STACK_FIND 8192u
#define SLEEP_STACK_MAKE_PACKET 7168u
#define SLEEP_STACK_ROOT_HASH 6144u
#define SLEEP_STACK_OLD_ROOT 6144u
#define SLEEP_STACK_APPEND 6144u
#define SLEEP_STACK_APPEND_LIST 6144u
#define SLEEP_STACK_PREVIEW 6144u
#define SLEEP_STACK_READ_NODE 7168u
#define SLEEP_STACK_TAKE_IN 11264u
#define SLEEP_STACK_NODE_OF 11264u
#define SLEEP_STACK_WRITE_NODE 6144u
#define SLEEP_STACK_COMPARE_PACKETS 9216u
#define SLEEP_STACK_COMPARE 9216u
#define SLEEP_STACK_AUDIT_TREE_PART 3072u
#define SLEEP_STACK_AUDIT_BITFIELD_PART 2048u
#define SLEEP_STACK_COPY_AUDIT_TREE_PART 6144u
#define SLEEP_STACK_COPY_AUDIT_BITFIELD_PART 2048u
#define SLEEP_STACK_COMPARE_HELD_PART 2048u
#define SLEEP_STACK_COMPARE_ROOTS_PART 9216u
#define SLEEP_STACK_COMPARE_WALK_PART 3072u
#define SLEEP_STACK_MAKE_COPY 512u
#define SLEEP_STACK_COPY_AUDIT 7168u
#define SLEEP_STACK_COPY_ROOT_HASH 6144u
#define SLEEP_STACK_COPY_OLD_ROOT 6144u
#define SLEEP_STACK_COPY_PLACE 7168u
#define SLEEP_STACK_COPY_BYTE 7168u
#define SLEEP_STACK_COPY_READ 7168u
#define SLEEP_STACK_COPY_RELEASE 7168u
#define SLEEP_STACK_COPY_SEARCH 2048u
#define SLEEP_STACK_COPY_SHORT_PLACE 2048u
#define SLEEP_STACK_COPY_SHORT_BYTE 2048u
#define SLEEP_STACK_COPY_SHORT_SEARCH 2048u
#define SLEEP_STACK_COPY_MAKE_PACKET 7168u
#define SLEEP_STACK_COPY_HEADER_OF 7168u
#define SLEEP_STACK_COPY_NODE_OF 10240u
#define SLEEP_STACK_COPY_FIND 8192u

enum { SLEEP_PLACE_NONE = 0, SLEEP_PLACE_TREE_INDEX = 1, SLEEP_PLACE_BITFIELD_BYTE = 2 };

typedef struct {
    uint64_t number;     /* 0: done; else the number of the refusal */
    uint64_t place_kind; /* one of SLEEP_PLACE_.. */
    uint64_t place;      /* a tree index or a byte offset, as place_kind says; else 0 */
} sleep_answer;

enum {
    SLEEP_EQUAL = 0,              /* the same chunks in the same order; of packets, the same chunk */
    SLEEP_ROOTS_DIFFER = 1,       /* the root hashes differ, and so do the chunks */
    SLEEP_COLLISION_AT_ROOTS = 2, /* equal root hashes of different root messages */
    SLEEP_COLLISION_AT_INDEX = 3, /* equal hashes of different messages at the tree index answer.place: the lowest, of packets the nearest the leaf */
    SLEEP_FIRST_REFUSED = 4,      /* answer is the refusal of the first register, or of the first packet's check */
    SLEEP_SECOND_REFUSED = 5      /* answer is the refusal of the second one's */
};

typedef struct {
    uint64_t outcome;    /* one of the six above */
    sleep_answer answer; /* its number is 0 unless a register or a packet is refused */
} sleep_comparison;

enum { SLEEP_METADATA = 0, SLEEP_CONTENT = 1 };

/* What a serving says. Where no read waits all numbers are 0. */
typedef struct {
    uint64_t served;     /* 1: a read was served; 0: no read waits, and nothing changed */
    uint64_t station;    /* the station whose read it was, 0 to 15 */
    uint64_t name;       /* the register that the read names: SLEEP_METADATA or SLEEP_CONTENT */
    uint64_t chunk;      /* the chunk number of the read */
    sleep_answer answer; /* what sleep_read answers to it */
} sleep_serving;

/* A number's field of a record. */
typedef struct {
    uint64_t given; /* 0: it is absent */
    uint64_t value;
} sleep_number;

/* A part of bytes: the offset of its first byte, and its length. */
typedef struct {
    uint64_t offset;
    uint64_t length;
} sleep_part;

/* A part's field. */
typedef struct {
    uint64_t given; /* 0: it is absent */
    sleep_part part;
} sleep_bytes;

typedef struct {
    sleep_part key;         /* SLEEP_KEY_BYTES bytes */
    sleep_bytes permission; /* absent, or at most SLEEP_LONGEST_PERMISSION bytes */
} sleep_writer;

/* mode is there wherever there is a Stat; it, uid and gid are below 2^32. */
typedef struct {
    uint64_t given; /* 0: there is no Stat */
    sleep_number mode, uid, gid, size, blocks, offset, byte_offset, mtime, ctime;
} sleep_stat;

typedef struct {
    sleep_part path;                          /* 1 to SLEEP_LONGEST_PATH bytes, the first of them a slash */
    sleep_stat value;
    sleep_bytes trie;                         /* absent, or at most SLEEP_LONGEST_TRIE bytes */
    uint64_t count;                           /* of writers */
    sleep_writer writers[SLEEP_MOST_WRITERS];
    sleep_number sequence;
} sleep_node;

/* What reading a Node answers, and the Node; after a refusal all its numbers are 0. */
typedef struct {
    sleep_answer answer;
    sleep_node node;
} sleep_node_read;

/* What a search for a path answers. */
typedef struct {
    uint64_t found;      /* 1: a record has the path; 0: none has, or the search is refused */
    uint64_t chunk;      /* the highest number of such a chunk; else 0 */
    sleep_answer answer;
} sleep_found;

/* What a job will need: the places of the eight numbers. */
enum {
    SLEEP_NEEDS_TREE = 0,       /* the used sizes of the four images afterwards, each signature counted */
    SLEEP_NEEDS_SIGNATURES = 1,
    SLEEP_NEEDS_BITFIELD = 2,
    SLEEP_NEEDS_DATA = 3,
    SLEEP_NEEDS_LEAVES = 4,     /* runs of BLAKE2b's compression function, for the new leaves, */
    SLEEP_NEEDS_PARENTS = 5,    /* for the parents that they complete, */
    SLEEP_NEEDS_ROOT = 6,       /* and for one root hash at the end; */
    SLEEP_NEEDS_RUNS = 7,       /* all three together */
    SLEEP_NEEDS_NUMBERS = 8
};

/* The four images, read only, and the three numbers. */
#define SLEEP_REGISTER_READ                                                                                                     \
    const uint8_t *tree, size_t tree_length, const uint8_t *signatures, size_t signatures_length, const uint8_t *bitfield,      \
        size_t bitfield_length, const uint8_t *data, size_t data_length, uint64_t n, uint64_t s, uint64_t size

/* The three images of a copy, read only, or to be written, and its two numbers. */
#define SLEEP_COPY_READ                                                                                                         \
    const uint8_t *tree, size_t tree_length, const uint8_t *bitfield, size_t bitfield_length, const uint8_t *data,              \
        size_t data_length, uint64_t n, uint64_t size
#define SLEEP_COPY_WRITTEN                                                                                                      \
    uint8_t *tree, size_t tree_length, uint8_t *bitfield, size_t bitfield_length, uint8_t *data, size_t data_length,            \
        uint64_t n, uint64_t size

/* Two registers, read only: metadata, then content. */
#define SLEEP_ARCHIVE_READ                                                                                                      \
    const uint8_t *mtree, size_t mtree_length, const uint8_t *msignatures, size_t msignatures_length, const uint8_t *mbitfield, \
        size_t mbitfield_length, const uint8_t *mdata, size_t mdata_length, uint64_t mn, uint64_t ms, uint64_t msize,           \
        const uint8_t *ctree, size_t ctree_length, const uint8_t *csignatures, size_t csignatures_length,                       \
        const uint8_t *cbitfield, size_t cbitfield_length, const uint8_t *cdata, size_t cdata_length, uint64_t cn, uint64_t cs, \
        uint64_t csize

/* The same with their lengths as 64-bit numbers, as the archive takes them. */
#define SLEEP_FLAT_REGISTER_READ                                                                                                \
    const uint8_t *tree, uint64_t tree_length, const uint8_t *signatures, uint64_t signatures_length, const uint8_t *bitfield,  \
        uint64_t bitfield_length, const uint8_t *data, uint64_t data_length, uint64_t n, uint64_t s, uint64_t size
#define SLEEP_FLAT_COPY_READ                                                                                                    \
    const uint8_t *tree, uint64_t tree_length, const uint8_t *bitfield, uint64_t bitfield_length, const uint8_t *data,          \
        uint64_t data_length, uint64_t n, uint64_t size
#define SLEEP_FLAT_COPY_WRITTEN                                                                                                 \
    uint8_t *tree, uint64_t tree_length, uint8_t *bitfield, uint64_t bitfield_length, uint8_t *data, uint64_t data_length,      \
        uint64_t n, uint64_t size
#define SLEEP_FLAT_ARCHIVE_READ                                                                                                 \
    const uint8_t *mtree, uint64_t mtree_length, const uint8_t *msignatures, uint64_t msignatures_length,                       \
        const uint8_t *mbitfield, uint64_t mbitfield_length, const uint8_t *mdata, uint64_t mdata_length, uint64_t mn,          \
        uint64_t ms, uint64_t msize, const uint8_t *ctree, uint64_t ctree_length, const uint8_t *csignatures,                   \
        uint64_t csignatures_length, const uint8_t *cbitfield, uint64_t cbitfield_length, const uint8_t *cdata,                 \
        uint64_t cdata_length, uint64_t cn, uint64_t cs, uint64_t csize

/* THE ARCHIVE'S SYMBOLS
 *   Addresses and 64-bit numbers alone cross the boundary, and at most one 64-bit number comes back, so that the C conventions of all 64-bit processors
 *   agree on it: no struct and no narrower number goes in or out by value. What a call answers stands in the array that is its last parameter, which is
 *   written whole on every call: the numbers of a sleep_answer, sleep_comparison, sleep_serving, sleep_found or sleep_node_read, in the order of their
 *   fields. A Node is handed over as its SLEEP_NODE_NUMBERS numbers likewise. These calls take no NULL, even where a length is 0. C and C++ use the
 *   fronts behind them, sleep_.. without flat; whoever links the symbols from another language keeps to their rule. */
#if defined(__GNUC__)
#define SLEEP_NOT_NULL __attribute__((nonnull))
#else
#define SLEEP_NOT_NULL
#endif

uint64_t sleep_flat_hash(uint64_t length, const uint8_t *key, uint64_t key_length, const uint8_t *message, uint64_t message_length,
                         uint8_t digest[64]) SLEEP_NOT_NULL;
uint64_t sleep_flat_hash_parts(const uint8_t *key, uint64_t key_length, const uint8_t *prefix, uint64_t prefix_length, const uint8_t *body,
                               uint64_t body_length, uint8_t out[32]) SLEEP_NOT_NULL;
uint64_t sleep_flat_label(const uint8_t root[32], const uint8_t *key, uint64_t key_length, uint8_t out[32]) SLEEP_NOT_NULL;
void sleep_flat_start(uint8_t *tree, uint64_t tree_length, uint8_t *signatures, uint64_t signatures_length, uint8_t *bitfield,
                      uint64_t bitfield_length, const uint8_t *data, uint64_t data_length, uint64_t answer[3]) SLEEP_NOT_NULL;
void sleep_flat_append(uint8_t *tree, uint64_t tree_length, const uint8_t *signatures, uint64_t signatures_length, uint8_t *bitfield,
                       uint64_t bitfield_length, uint8_t *data, uint64_t data_length, uint64_t n, uint64_t s, uint64_t size,
                       const uint8_t *chunk, uint64_t chunk_length, uint8_t root[32], uint64_t answer[3]) SLEEP_NOT_NULL;
void sleep_flat_append_list(uint8_t *tree, uint64_t tree_length, uint8_t *signatures, uint64_t signatures_length, uint8_t *bitfield,
                            uint64_t bitfield_length, uint8_t *data, uint64_t data_length, uint64_t n, uint64_t s, uint64_t size,
                            const uint64_t *lengths, uint64_t lengths_count, const uint8_t *bytes, uint64_t bytes_length, uint8_t root[32],
                            uint64_t answer[3]) SLEEP_NOT_NULL;
void sleep_flat_preview(SLEEP_FLAT_REGISTER_READ, const uint8_t *chunk, uint64_t chunk_length, uint8_t root[32],
                        uint64_t answer[3]) SLEEP_NOT_NULL;
void sleep_flat_store_signature(const uint8_t *tree, uint64_t tree_length, uint8_t *signatures, uint64_t signatures_length,
                                const uint8_t *bitfield, uint64_t bitfield_length, const uint8_t *data, uint64_t data_length, uint64_t n,
                                uint64_t s, uint64_t size, const uint8_t signature[64], uint64_t answer[3]) SLEEP_NOT_NULL;
void sleep_flat_root_hash(SLEEP_FLAT_REGISTER_READ, uint8_t root[32], uint64_t answer[3]) SLEEP_NOT_NULL;
void sleep_flat_old_root(SLEEP_FLAT_REGISTER_READ, uint64_t m, uint8_t root[32], uint64_t answer[3]) SLEEP_NOT_NULL;
void sleep_flat_stored_leaf(SLEEP_FLAT_REGISTER_READ, uint64_t chunk, uint8_t hash[32], uint64_t *length, uint64_t answer[3]) SLEEP_NOT_NULL;
void sleep_flat_audit(SLEEP_FLAT_REGISTER_READ, uint64_t answer[3]) SLEEP_NOT_NULL;
void sleep_flat_place(SLEEP_FLAT_REGISTER_READ, uint64_t chunk, uint64_t out[2], uint64_t answer[3]) SLEEP_NOT_NULL;
void sleep_flat_byte(SLEEP_FLAT_REGISTER_READ, uint64_t offset, uint64_t out[2], uint64_t answer[3]) SLEEP_NOT_NULL;
void sleep_flat_read(SLEEP_FLAT_REGISTER_READ, uint64_t chunk, uint64_t out[2], uint64_t answer[3]) SLEEP_NOT_NULL;
void sleep_flat_release(const uint8_t *tree, uint64_t tree_length, const uint8_t *signatures, uint64_t signatures_length, uint8_t *bitfield,
                        uint64_t bitfield_length, uint8_t *data, uint64_t data_length, uint64_t n, uint64_t s, uint64_t size,
                        uint64_t chunk, uint64_t answer[3]) SLEEP_NOT_NULL;
void sleep_flat_search(SLEEP_FLAT_REGISTER_READ, uint64_t from, uint64_t out[2], uint64_t answer[3]) SLEEP_NOT_NULL;
void sleep_flat_short_place(SLEEP_FLAT_REGISTER_READ, uint64_t chunk, uint64_t out[2], uint64_t answer[3]) SLEEP_NOT_NULL;
void sleep_flat_short_byte(SLEEP_FLAT_REGISTER_READ, uint64_t offset, uint64_t out[2], uint64_t answer[3]) SLEEP_NOT_NULL;
void sleep_flat_short_search(SLEEP_FLAT_REGISTER_READ, uint64_t from, uint64_t out[2], uint64_t answer[3]) SLEEP_NOT_NULL;
void sleep_flat_make_packet(SLEEP_FLAT_REGISTER_READ, uint64_t chunk, uint8_t *out, uint64_t out_length, uint64_t *length,
                            uint64_t answer[3]) SLEEP_NOT_NULL;
void sleep_flat_check_packet(const uint8_t *packet, uint64_t packet_length, uint64_t n, uint64_t chunk, const uint8_t root[32],
                             uint64_t out[2], uint64_t answer[3]) SLEEP_NOT_NULL;
void sleep_flat_compare_packets(const uint8_t *first, uint64_t first_length, const uint8_t *second, uint64_t second_length, uint64_t n,
                                uint64_t chunk, const uint8_t root[32], uint64_t answer[4]) SLEEP_NOT_NULL;
void sleep_flat_compare(SLEEP_FLAT_REGISTER_READ, const uint8_t *tree2, uint64_t tree2_length, const uint8_t *signatures2,
                        uint64_t signatures2_length, const uint8_t *bitfield2, uint64_t bitfield2_length, const uint8_t *data2,
                        uint64_t data2_length, uint64_t n2, uint64_t s2, uint64_t size2, uint64_t answer[4]) SLEEP_NOT_NULL;
void sleep_flat_audit_tree_part(SLEEP_FLAT_REGISTER_READ, uint64_t from, uint64_t to, uint64_t answer[3]) SLEEP_NOT_NULL;
void sleep_flat_audit_bitfield_part(SLEEP_FLAT_REGISTER_READ, uint64_t from, uint64_t to, uint64_t answer[3]) SLEEP_NOT_NULL;
void sleep_flat_compare_held_part(SLEEP_FLAT_REGISTER_READ, uint64_t answer[3]) SLEEP_NOT_NULL;
void sleep_flat_compare_roots_part(SLEEP_FLAT_REGISTER_READ, const uint8_t *tree2, uint64_t tree2_length, const uint8_t *signatures2,
                                   uint64_t signatures2_length, const uint8_t *bitfield2, uint64_t bitfield2_length,
                                   const uint8_t *data2, uint64_t data2_length, uint64_t n2, uint64_t s2, uint64_t size2,
                                   uint64_t answer[4]) SLEEP_NOT_NULL;
void sleep_flat_compare_walk_part(SLEEP_FLAT_REGISTER_READ, const uint8_t *tree2, uint64_t tree2_length, const uint8_t *signatures2,
                                  uint64_t signatures2_length, const uint8_t *bitfield2, uint64_t bitfield2_length, const uint8_t *data2,
                                  uint64_t data2_length, uint64_t n2, uint64_t s2, uint64_t size2, uint64_t from, uint64_t to,
                                  uint64_t answer[4]) SLEEP_NOT_NULL;
void sleep_flat_group(const uint8_t *bytes, uint64_t bytes_length, uint8_t *out, uint64_t out_length, uint64_t answer[3]) SLEEP_NOT_NULL;
void sleep_flat_ungroup(const uint8_t *bytes, uint64_t bytes_length, uint8_t *out, uint64_t out_length, uint64_t answer[3]) SLEEP_NOT_NULL;
void sleep_flat_needs(uint64_t n, uint64_t size, const uint64_t *lengths, uint64_t lengths_count, uint64_t out[8],
                      uint64_t answer[3]) SLEEP_NOT_NULL;
void sleep_flat_fresh(uint64_t table[161], uint64_t answer[3]) SLEEP_NOT_NULL;
void sleep_flat_enter(uint64_t table[161], uint64_t station, uint64_t name, uint64_t chunk, uint64_t answer[3]) SLEEP_NOT_NULL;
void sleep_flat_serve(uint64_t table[161], SLEEP_FLAT_ARCHIVE_READ, uint64_t out[2], uint64_t answer[7]) SLEEP_NOT_NULL;
void sleep_flat_write_header(const uint8_t *content, uint64_t content_length, uint8_t *out, uint64_t out_length, uint64_t *length,
                             uint64_t answer[3]) SLEEP_NOT_NULL;
void sleep_flat_write_node(const uint8_t *bytes, uint64_t bytes_length, const uint64_t node[67], uint8_t *out, uint64_t out_length,
                           uint64_t *length, uint64_t answer[3]) SLEEP_NOT_NULL;
void sleep_flat_read_header(const uint8_t *bytes, uint64_t bytes_length, uint64_t out[2], uint64_t answer[3]) SLEEP_NOT_NULL;
void sleep_flat_read_node(const uint8_t *bytes, uint64_t bytes_length, uint64_t answer[70]) SLEEP_NOT_NULL;
void sleep_flat_header_of(SLEEP_FLAT_REGISTER_READ, uint64_t chunk, uint64_t out[2], uint64_t answer[3]) SLEEP_NOT_NULL;
void sleep_flat_node_of(SLEEP_FLAT_REGISTER_READ, uint64_t chunk, uint64_t answer[70]) SLEEP_NOT_NULL;
void sleep_flat_find(SLEEP_FLAT_REGISTER_READ, const uint8_t *path, uint64_t path_length, uint64_t answer[5]) SLEEP_NOT_NULL;
void sleep_flat_make_copy(SLEEP_FLAT_COPY_WRITTEN, uint64_t answer[3]) SLEEP_NOT_NULL;
void sleep_flat_take_in(SLEEP_FLAT_COPY_WRITTEN, const uint8_t *packet, uint64_t packet_length, uint64_t chunk, const uint8_t root[32],
                        uint64_t answer[3]) SLEEP_NOT_NULL;
void sleep_flat_copy_audit(SLEEP_FLAT_COPY_READ, uint64_t answer[3]) SLEEP_NOT_NULL;
void sleep_flat_copy_audit_tree_part(SLEEP_FLAT_COPY_READ, uint64_t from, uint64_t to, uint64_t answer[3]) SLEEP_NOT_NULL;
void sleep_flat_copy_audit_bitfield_part(SLEEP_FLAT_COPY_READ, uint64_t from, uint64_t to, uint64_t answer[3]) SLEEP_NOT_NULL;
void sleep_flat_copy_root_hash(SLEEP_FLAT_COPY_READ, uint8_t root[32], uint64_t answer[3]) SLEEP_NOT_NULL;
void sleep_flat_copy_old_root(SLEEP_FLAT_COPY_READ, uint64_t m, uint8_t root[32], uint64_t answer[3]) SLEEP_NOT_NULL;
void sleep_flat_copy_stored_leaf(SLEEP_FLAT_COPY_READ, uint64_t chunk, uint8_t hash[32], uint64_t *length, uint64_t answer[3]) SLEEP_NOT_NULL;
void sleep_flat_copy_place(SLEEP_FLAT_COPY_READ, uint64_t chunk, uint64_t out[2], uint64_t answer[3]) SLEEP_NOT_NULL;
void sleep_flat_copy_byte(SLEEP_FLAT_COPY_READ, uint64_t offset, uint64_t out[2], uint64_t answer[3]) SLEEP_NOT_NULL;
void sleep_flat_copy_read(SLEEP_FLAT_COPY_READ, uint64_t chunk, uint64_t out[2], uint64_t answer[3]) SLEEP_NOT_NULL;
void sleep_flat_copy_release(const uint8_t *tree, uint64_t tree_length, uint8_t *bitfield, uint64_t bitfield_length, uint8_t *data,
                             uint64_t data_length, uint64_t n, uint64_t size, uint64_t chunk, uint64_t answer[3]) SLEEP_NOT_NULL;
void sleep_flat_copy_search(SLEEP_FLAT_COPY_READ, uint64_t from, uint64_t out[2], uint64_t answer[3]) SLEEP_NOT_NULL;
void sleep_flat_copy_short_place(SLEEP_FLAT_COPY_READ, uint64_t chunk, uint64_t out[2], uint64_t answer[3]) SLEEP_NOT_NULL;
void sleep_flat_copy_short_byte(SLEEP_FLAT_COPY_READ, uint64_t offset, uint64_t out[2], uint64_t answer[3]) SLEEP_NOT_NULL;
void sleep_flat_copy_short_search(SLEEP_FLAT_COPY_READ, uint64_t from, uint64_t out[2], uint64_t answer[3]) SLEEP_NOT_NULL;
void sleep_flat_copy_make_packet(SLEEP_FLAT_COPY_READ, uint64_t chunk, uint8_t *out, uint64_t out_length, uint64_t *length,
                                 uint64_t answer[3]) SLEEP_NOT_NULL;
void sleep_flat_copy_header_of(SLEEP_FLAT_COPY_READ, uint64_t chunk, uint64_t out[2], uint64_t answer[3]) SLEEP_NOT_NULL;
void sleep_flat_copy_node_of(SLEEP_FLAT_COPY_READ, uint64_t chunk, uint64_t answer[70]) SLEEP_NOT_NULL;
void sleep_flat_copy_find(SLEEP_FLAT_COPY_READ, const uint8_t *path, uint64_t path_length, uint64_t answer[5]) SLEEP_NOT_NULL;
uint64_t sleep_flat_version(void);

/* Journals: see JOURNALS, and the fronts below. */
void sleep_flat_journal_begin(uint8_t *journal, uint64_t journal_length, const uint64_t states[20], uint64_t answer[2]) SLEEP_NOT_NULL;
void sleep_flat_journal_put(uint8_t *journal, uint64_t journal_length, uint64_t at, uint64_t file, uint64_t kind, uint64_t offset,
                            uint64_t length, const uint8_t *old_bytes, uint64_t old_bytes_length, const uint8_t *new_bytes,
                            uint64_t new_bytes_length, uint64_t answer[2]) SLEEP_NOT_NULL;
void sleep_flat_journal_end(uint8_t *journal, uint64_t journal_length, uint64_t at, uint64_t answer[2]) SLEEP_NOT_NULL;
void sleep_flat_journal_check(const uint8_t *journal, uint64_t journal_length, uint64_t answer[2]) SLEEP_NOT_NULL;
void sleep_flat_journal_states(const uint8_t *journal, uint64_t journal_length, uint64_t file, uint64_t states[2],
                               uint64_t answer[2]) SLEEP_NOT_NULL;
void sleep_flat_journal_between(const uint8_t *journal, uint64_t journal_length, uint64_t file, uint64_t at, uint64_t there,
                                const uint8_t *bytes, uint64_t bytes_length, uint64_t answer[2]) SLEEP_NOT_NULL;
void sleep_flat_journal_next(const uint8_t *journal, uint64_t journal_length, uint64_t at, uint64_t range[5],
                             uint64_t answer[2]) SLEEP_NOT_NULL;

#undef SLEEP_NOT_NULL
#undef SLEEP_FLAT_REGISTER_READ
#undef SLEEP_FLAT_COPY_READ
#undef SLEEP_FLAT_COPY_WRITTEN
#undef SLEEP_FLAT_ARCHIVE_READ

/* THE NUMBERS OF A STRUCT, in the order of its fields: what the fronts make of the archive's answers, and of a Node. */
static inline sleep_answer sleep_answer_from(const uint64_t a[3]) {
    sleep_answer r;
    r.number = a[0];
    r.place_kind = a[1];
    r.place = a[2];
    return r;
}

static inline sleep_comparison sleep_comparison_from(const uint64_t a[4]) {
    sleep_comparison r;
    r.outcome = a[0];
    r.answer = sleep_answer_from(a + 1);
    return r;
}

static inline sleep_serving sleep_serving_from(const uint64_t a[7]) {
    sleep_serving r;
    r.served = a[0];
    r.station = a[1];
    r.name = a[2];
    r.chunk = a[3];
    r.answer = sleep_answer_from(a + 4);
    return r;
}

static inline sleep_found sleep_found_from(const uint64_t a[5]) {
    sleep_found r;
    r.found = a[0];
    r.chunk = a[1];
    r.answer = sleep_answer_from(a + 2);
    return r;
}

static inline sleep_number sleep_number_from(const uint64_t a[2]) {
    sleep_number r;
    r.given = a[0];
    r.value = a[1];
    return r;
}

static inline sleep_part sleep_part_from(const uint64_t a[2]) {
    sleep_part r;
    r.offset = a[0];
    r.length = a[1];
    return r;
}

static inline sleep_bytes sleep_bytes_from(const uint64_t a[3]) {
    sleep_bytes r;
    r.given = a[0];
    r.part = sleep_part_from(a + 1);
    return r;
}

static inline sleep_stat sleep_stat_from(const uint64_t a[19]) {
    sleep_stat r;
    r.given = a[0];
    r.mode = sleep_number_from(a + 1);
    r.uid = sleep_number_from(a + 3);
    r.gid = sleep_number_from(a + 5);
    r.size = sleep_number_from(a + 7);
    r.blocks = sleep_number_from(a + 9);
    r.offset = sleep_number_from(a + 11);
    r.byte_offset = sleep_number_from(a + 13);
    r.mtime = sleep_number_from(a + 15);
    r.ctime = sleep_number_from(a + 17);
    return r;
}

static inline sleep_node_read sleep_node_read_from(const uint64_t a[70]) {
    sleep_node_read r;
    const uint64_t *node = a + 3;
    r.answer = sleep_answer_from(a);
    r.node.path = sleep_part_from(node);
    r.node.value = sleep_stat_from(node + 2);
    r.node.trie = sleep_bytes_from(node + 21);
    r.node.count = node[24];
    for (unsigned k = 0; k < SLEEP_MOST_WRITERS; k++) {
        r.node.writers[k].key = sleep_part_from(node + 25 + 5 * k);
        r.node.writers[k].permission = sleep_bytes_from(node + 27 + 5 * k);
    }
    r.node.sequence = sleep_number_from(node + 65);
    return r;
}

static inline void sleep_number_into(uint64_t a[2], sleep_number r) {
    a[0] = r.given;
    a[1] = r.value;
}

static inline void sleep_part_into(uint64_t a[2], sleep_part r) {
    a[0] = r.offset;
    a[1] = r.length;
}

static inline void sleep_bytes_into(uint64_t a[3], sleep_bytes r) {
    a[0] = r.given;
    sleep_part_into(a + 1, r.part);
}

static inline void sleep_stat_into(uint64_t a[19], const sleep_stat *r) {
    a[0] = r->given;
    sleep_number_into(a + 1, r->mode);
    sleep_number_into(a + 3, r->uid);
    sleep_number_into(a + 5, r->gid);
    sleep_number_into(a + 7, r->size);
    sleep_number_into(a + 9, r->blocks);
    sleep_number_into(a + 11, r->offset);
    sleep_number_into(a + 13, r->byte_offset);
    sleep_number_into(a + 15, r->mtime);
    sleep_number_into(a + 17, r->ctime);
}

static inline void sleep_node_into(uint64_t a[SLEEP_NODE_NUMBERS], const sleep_node *r) {
    sleep_part_into(a, r->path);
    sleep_stat_into(a + 2, &r->value);
    sleep_bytes_into(a + 21, r->trie);
    a[24] = r->count;
    for (unsigned k = 0; k < SLEEP_MOST_WRITERS; k++) {
        sleep_part_into(a + 25 + 5 * k, r->writers[k].key);
        sleep_bytes_into(a + 27 + 5 * k, r->writers[k].permission);
    }
    sleep_number_into(a + 65, r->sequence);
}

/* THE CALLS
 *   Each looks at the lengths: for an empty buffer it hands on a pointer that is not NULL, and everything else as it is. */
#define SLEEP_LENT(buffer) (buffer##_length == 0 ? (uint8_t *)&buffer##_length : buffer), buffer##_length
#define SLEEP_REGISTER_LENT SLEEP_LENT(tree), SLEEP_LENT(signatures), SLEEP_LENT(bitfield), SLEEP_LENT(data), n, s, size
#define SLEEP_COPY_LENT SLEEP_LENT(tree), SLEEP_LENT(bitfield), SLEEP_LENT(data), n, size

/* BLAKE2b (RFC 7693) under a key of 0 to 64 bytes, the empty key being the hash without one: length bytes of output, then zeros up to 64.
 * Answers 0, or 1 for a wrong length, or 17 for a longer key. */
static inline uint64_t sleep_hash(uint64_t length, const uint8_t *key, size_t key_length, const uint8_t *message, size_t message_length,
                                  uint8_t digest[64]) {
    return sleep_flat_hash(length, SLEEP_LENT(key), SLEEP_LENT(message), digest);
}

/* BLAKE2b with 32 bytes of output, of prefix and then body; with the empty key it is the hash of leaves, parents and roots. Answers 0, or 17. */
static inline uint64_t sleep_hash_parts(const uint8_t *key, size_t key_length, const uint8_t *prefix, size_t prefix_length,
                                        const uint8_t *body, size_t body_length, uint8_t out[32]) {
    return sleep_flat_hash_parts(SLEEP_LENT(key), SLEEP_LENT(prefix), SLEEP_LENT(body), out);
}

/* The label of a root hash: its hash with 32 bytes of output under the maker's key. Answers 0, or 17. */
static inline uint64_t sleep_label(const uint8_t root[32], const uint8_t *key, size_t key_length, uint8_t out[32]) {
    return sleep_flat_label(root, SLEEP_LENT(key), out);
}

/* A register without chunks: writes the three headers, 32 bytes each, and no other byte. Refusal: 14. Go on with n = s = size = 0. */
static inline sleep_answer sleep_start(uint8_t *tree, size_t tree_length, uint8_t *signatures, size_t signatures_length, uint8_t *bitfield,
                                       size_t bitfield_length, const uint8_t *data, size_t data_length) {
    uint64_t answer[3];
    sleep_flat_start(SLEEP_LENT(tree), SLEEP_LENT(signatures), SLEEP_LENT(bitfield), SLEEP_LENT(data), answer);
    return sleep_answer_from(answer);
}

/* Adds one chunk, which may be empty, and gives the new root hash, for the signing device. Refusals: 2 to 8, 14. */
static inline sleep_answer sleep_append(uint8_t *tree, size_t tree_length, const uint8_t *signatures, size_t signatures_length,
                                        uint8_t *bitfield, size_t bitfield_length, uint8_t *data, size_t data_length, uint64_t n,
                                        uint64_t s, uint64_t size, const uint8_t *chunk, size_t chunk_length, uint8_t root[32]) {
    uint64_t answer[3];
    sleep_flat_append(SLEEP_REGISTER_LENT, SLEEP_LENT(chunk), root, answer);
    return sleep_answer_from(answer);
}

/* Adds all chunks of a list, or none of them, and gives the new root hash: lengths has the length of each chunk, lengths_count counts them, and
 * bytes has the chunks one behind another. Tree, bitfield and data become what single appends would leave. The list carries one signature, for its
 * last chunk, which is owed afterwards; those of the chunks before it are written as 64 zero bytes each. Refusals: 2 to 6, 16, 7, 8, 14. */
static inline sleep_answer sleep_append_list(uint8_t *tree, size_t tree_length, uint8_t *signatures, size_t signatures_length,
                                             uint8_t *bitfield, size_t bitfield_length, uint8_t *data, size_t data_length, uint64_t n,
                                             uint64_t s, uint64_t size, const uint64_t *lengths, size_t lengths_count, const uint8_t *bytes,
                                             size_t bytes_length, uint8_t root[32]) {
    const uint64_t none = 0;
    uint64_t answer[3];
    sleep_flat_append_list(SLEEP_REGISTER_LENT, lengths_count == 0 ? &none : lengths, lengths_count, SLEEP_LENT(bytes), root, answer);
    return sleep_answer_from(answer);
}

/* What sleep_append would answer to these arguments, and the root hash that it would give, and nothing is written: the signature can be made
 * before the chunk is stored. Lend the buffers at the lengths that the append will have, since room is judged too. Refusals: 2 to 8, 14. */
static inline sleep_answer sleep_preview(SLEEP_REGISTER_READ, const uint8_t *chunk, size_t chunk_length, uint8_t root[32]) {
    uint64_t answer[3];
    sleep_flat_preview(SLEEP_REGISTER_LENT, SLEEP_LENT(chunk), root, answer);
    return sleep_answer_from(answer);
}

/* Stores the newest chunk's signature, 64 bytes that are not looked into. Refusals: 2 to 6, 8, 14. */
static inline sleep_answer sleep_store_signature(const uint8_t *tree, size_t tree_length, uint8_t *signatures, size_t signatures_length,
                                                 const uint8_t *bitfield, size_t bitfield_length, const uint8_t *data, size_t data_length,
                                                 uint64_t n, uint64_t s, uint64_t size, const uint8_t signature[64]) {
    uint64_t answer[3];
    sleep_flat_store_signature(SLEEP_REGISTER_LENT, signature, answer);
    return sleep_answer_from(answer);
}

/* The root hash that the stored roots give. It does not look at the other entries. Refusals: 2 to 6. */
static inline sleep_answer sleep_root_hash(SLEEP_REGISTER_READ, uint8_t root[32]) {
    uint64_t answer[3];
    sleep_flat_root_hash(SLEEP_REGISTER_LENT, root, answer);
    return sleep_answer_from(answer);
}

/* The root hash of the first m chunks, as it was when the register had m, from the stored entries and without an audit; m = 0 gives that of an
 * empty register, m = n that of sleep_root_hash. Of the tree it looks at the roots of n and of m alone, so it costs no more in a longer
 * register. Refusals: 2 to 6, 9 for m above n. */
static inline sleep_answer sleep_old_root(SLEEP_REGISTER_READ, uint64_t m, uint8_t root[32]) {
    uint64_t answer[3];
    sleep_flat_old_root(SLEEP_REGISTER_LENT, m, root, answer);
    return sleep_answer_from(answer);
}

/* The entry that is stored for a chunk's leaf, held or released: its hash in hash, and its length in length. So two registers' chunks can be told apart
 * without their bytes. Nothing is audited: no hash is made and no length judged, so audit first where the images are not trusted. Refusals: 2 to 6, 9. */
static inline sleep_answer sleep_stored_leaf(SLEEP_REGISTER_READ, uint64_t chunk, uint8_t hash[32], uint64_t *length) {
    uint64_t answer[3];
    sleep_flat_stored_leaf(SLEEP_REGISTER_LENT, chunk, hash, length, answer);
    return sleep_answer_from(answer);
}

/* Whether the images are those of some chunks: hashes every chunk that is held again; of one that was released the bytes must be zeros, and its leaf
 * entry is taken as it stands. Refusals: 2 to 6, 10, 11. */
static inline sleep_answer sleep_audit(SLEEP_REGISTER_READ) {
    uint64_t answer[3];
    sleep_flat_audit(SLEEP_REGISTER_LENT, answer);
    return sleep_answer_from(answer);
}

/* A part of the audit: its checks, then the tree entries from `from` on and before `to`. Refusals: 2 to 6, 10 at the lowest wrong entry of the range. */
static inline sleep_answer sleep_audit_tree_part(SLEEP_REGISTER_READ, uint64_t from, uint64_t to) {
    uint64_t answer[3];
    sleep_flat_audit_tree_part(SLEEP_REGISTER_LENT, from, to, answer);
    return sleep_answer_from(answer);
}

/* The same of the bitfield's entries from `from` on and before `to`. Refusals: 2 to 6, 11 at the lowest wrong byte of these entries. */
static inline sleep_answer sleep_audit_bitfield_part(SLEEP_REGISTER_READ, uint64_t from, uint64_t to) {
    uint64_t answer[3];
    sleep_flat_audit_bitfield_part(SLEEP_REGISTER_LENT, from, to, answer);
    return sleep_answer_from(answer);
}

/* What two parts of one audit say together: the lower number, and of one number the lower place; "done" comes last. */
static inline sleep_answer sleep_earlier(sleep_answer a, sleep_answer b) {
    if (a.number == 0) return b;
    if (b.number == 0) return a;
    if (a.number != b.number) return a.number < b.number ? a : b;
    return a.place < b.place ? a : b;
}

/* Where a chunk lies in data, as a part: out[0] its offset, out[1] its length. Nothing is hashed. Refusals: 2 to 6, 9, 10. */
static inline sleep_answer sleep_place(SLEEP_REGISTER_READ, uint64_t chunk, uint64_t out[2]) {
    uint64_t answer[3];
    sleep_flat_place(SLEEP_REGISTER_LENT, chunk, out, answer);
    return sleep_answer_from(answer);
}

/* out[0]: the number of the chunk that has the byte at an offset of data, never of an empty chunk; out[1]: which byte of that chunk it is,
 * from 0. At the offset size, the end of the data, out is n and 0, whatever lengths the tree holds, and 0 and 0 in an empty register.
 * Nothing is hashed. Refusals: 2 to 6, 9 for an offset above size, 10. */
static inline sleep_answer sleep_byte(SLEEP_REGISTER_READ, uint64_t offset, uint64_t out[2]) {
    uint64_t answer[3];
    sleep_flat_byte(SLEEP_REGISTER_LENT, offset, out, answer);
    return sleep_answer_from(answer);
}

/* A verified read: the chunk's part of data, as sleep_place gives it, after its bytes were hashed where they lie and their hash was found to
 * be the stored one. Of two registers, lend the one that is meant. Refusals: 2 to 6, 9, 18, 10. */
static inline sleep_answer sleep_read(SLEEP_REGISTER_READ, uint64_t chunk, uint64_t out[2]) {
    uint64_t answer[3];
    sleep_flat_read(SLEEP_REGISTER_LENT, chunk, out, answer);
    return sleep_answer_from(answer);
}

/* Makes room: the chunk, found as sleep_place finds it, is held no longer. Clears its data bit, makes the Index of its bitfield entry anew and writes
 * zeros over its bytes; tree and signatures are only read. Refusals: 2 to 6, 9, 18, 10. */
static inline sleep_answer sleep_release(const uint8_t *tree, size_t tree_length, const uint8_t *signatures, size_t signatures_length,
                                         uint8_t *bitfield, size_t bitfield_length, uint8_t *data, size_t data_length, uint64_t n,
                                         uint64_t s, uint64_t size, uint64_t chunk) {
    uint64_t answer[3];
    sleep_flat_release(SLEEP_REGISTER_LENT, chunk, answer);
    return sleep_answer_from(answer);
}

/* The first chunk from number from on, below n, that is not held: out is 1 and its number, or 0 and 0 where there is none, also for a from of n or more.
 * It passes over each group of 16 chunks whose Index tuple says that all are held, and believes it. Refusals: 2 to 6. */
static inline sleep_answer sleep_search(SLEEP_REGISTER_READ, uint64_t from, uint64_t out[2]) {
    uint64_t answer[3];
    sleep_flat_search(SLEEP_REGISTER_LENT, from, out, answer);
    return sleep_answer_from(answer);
}

/* The short way: what the simplest program does with the files, slower where the register is longer. On every register that sleep_audit accepts the three
 * calls give what sleep_place, sleep_byte and sleep_search give, refusals included (proved: ShortAgreesForAll, crates/short_lookup/specs/Theorems.antt).
 *
 * Where a chunk lies, by the leaf lengths alone, added up from chunk 0 on. Refusals: 2 to 6, 9, 10 at the first leaf above 65,536 among those of the
 * chunks 0 to chunk. On a register that no audit accepted out may lie outside data: compare out[0] + out[1] with size before you follow it (see
 * PARTS). It may be another than sleep_place's there. */
static inline sleep_answer sleep_short_place(SLEEP_REGISTER_READ, uint64_t chunk, uint64_t out[2]) {
    uint64_t answer[3];
    sleep_flat_short_place(SLEEP_REGISTER_LENT, chunk, out, answer);
    return sleep_answer_from(answer);
}

/* The chunk that has the byte at an offset of data, and which byte of it, by the leaf lengths alone; never an empty chunk, and n and 0 at the offset size.
 * Refusals: 2 to 6, 9 for an offset above size, 10 at the first leaf above 65,536 that it comes to, or at the last leaf where none has the byte. */
static inline sleep_answer sleep_short_byte(SLEEP_REGISTER_READ, uint64_t offset, uint64_t out[2]) {
    uint64_t answer[3];
    sleep_flat_short_byte(SLEEP_REGISTER_LENT, offset, out, answer);
    return sleep_answer_from(answer);
}

/* The first chunk from number from on, below n, whose data bit is 0, as sleep_search gives it; the bits are read one after the other, and the Index is not
 * looked at. Wherever the Index follows from the data bits out is sleep_search's. Refusals: 2 to 6. */
static inline sleep_answer sleep_short_search(SLEEP_REGISTER_READ, uint64_t from, uint64_t out[2]) {
    uint64_t answer[3];
    sleep_flat_short_search(SLEEP_REGISTER_LENT, from, out, answer);
    return sleep_answer_from(answer);
}

/* The packet of a chunk: its bytes with the entries that show it to stand under the register's root hash. It reads the chunk as sleep_read
 * does, writes the packet at the front of out, leaves the rest of out as it was, and gives the packet's length. out needs room for the
 * chunk's length and at most SLEEP_PACKET_EXTRA bytes more. Refusals: 2 to 6, 9, 18, 10, 14. */
static inline sleep_answer sleep_make_packet(SLEEP_REGISTER_READ, uint64_t chunk, uint8_t *out, size_t out_length, uint64_t *length) {
    uint64_t answer[3];
    sleep_flat_make_packet(SLEEP_REGISTER_LENT, chunk, SLEEP_LENT(out), length, answer);
    return sleep_answer_from(answer);
}

/* Whether a packet, of exactly packet_length bytes, shows its bytes to be chunk number chunk of the n chunks whose root hash is root. After
 * done the chunk is the part out of packet. No register is needed. Refusals: 2, 9, 12, 13. */
static inline sleep_answer sleep_check_packet(const uint8_t *packet, size_t packet_length, uint64_t n, uint64_t chunk,
                                              const uint8_t root[32], uint64_t out[2]) {
    uint64_t answer[3];
    sleep_flat_check_packet(SLEEP_LENT(packet), n, chunk, root, out, answer);
    return sleep_answer_from(answer);
}

/* The walk along two packets of one chunk number, of n chunks, under one root hash: checks the first as sleep_check_packet does, then the second; a
 * refusal (2, 9, 12, 13) says which packet. SLEEP_EQUAL says that both have the same chunk, whatever their siblings. Two different chunks under one
 * root hash mean that two different messages have one hash: the first such pair on the way from the leaf upward is named, at a tree index or at the
 * roots. SLEEP_ROOTS_DIFFER is never the outcome. */
static inline sleep_comparison sleep_compare_packets(const uint8_t *first, size_t first_length, const uint8_t *second, size_t second_length,
                                                     uint64_t n, uint64_t chunk, const uint8_t root[32]) {
    uint64_t answer[4];
    sleep_flat_compare_packets(SLEEP_LENT(first), SLEEP_LENT(second), n, chunk, root, answer);
    return sleep_comparison_from(answer);
}

/* The comparing walk, of registers that hold all their chunks: makes all checks of the first register, then all of the second, then compares them. A
 * refusal (2 to 6, 18 at the lowest chunk not held, then 10 and 11 as the audit has them) says which register. */
static inline sleep_comparison sleep_compare(SLEEP_REGISTER_READ, const uint8_t *tree2, size_t tree2_length, const uint8_t *signatures2,
                                             size_t signatures2_length, const uint8_t *bitfield2, size_t bitfield2_length,
                                             const uint8_t *data2, size_t data2_length, uint64_t n2, uint64_t s2, uint64_t size2) {
    uint64_t answer[4];
    sleep_flat_compare(SLEEP_REGISTER_LENT, SLEEP_LENT(tree2), SLEEP_LENT(signatures2), SLEEP_LENT(bitfield2), SLEEP_LENT(data2), n2, s2,
                       size2, answer);
    return sleep_comparison_from(answer);
}

/* The checks of one register for a comparison that look at no tree entry. Refusals: 2 to 6, 18 at the lowest chunk that is not held. */
static inline sleep_answer sleep_compare_held_part(SLEEP_REGISTER_READ) {
    uint64_t answer[3];
    sleep_flat_compare_held_part(SLEEP_REGISTER_LENT, answer);
    return sleep_answer_from(answer);
}

/* A part of the comparing walk: the root hashes, then the root messages. A refusal (2 to 6) says which register. SLEEP_EQUAL says that neither differs. */
static inline sleep_comparison sleep_compare_roots_part(SLEEP_REGISTER_READ, const uint8_t *tree2, size_t tree2_length,
                                                        const uint8_t *signatures2, size_t signatures2_length, const uint8_t *bitfield2,
                                                        size_t bitfield2_length, const uint8_t *data2, size_t data2_length, uint64_t n2,
                                                        uint64_t s2, uint64_t size2) {
    uint64_t answer[4];
    sleep_flat_compare_roots_part(SLEEP_REGISTER_LENT, SLEEP_LENT(tree2), SLEEP_LENT(signatures2), SLEEP_LENT(bitfield2),
                                  SLEEP_LENT(data2), n2, s2, size2, answer);
    return sleep_comparison_from(answer);
}

/* A part of the comparing walk: the lowest collision from the tree index `from` on and before `to`. A refusal (2 to 6) says which register. SLEEP_EQUAL
 * says that no index of the range has one; registers with different numbers of chunks have none. */
static inline sleep_comparison sleep_compare_walk_part(SLEEP_REGISTER_READ, const uint8_t *tree2, size_t tree2_length,
                                                       const uint8_t *signatures2, size_t signatures2_length, const uint8_t *bitfield2,
                                                       size_t bitfield2_length, const uint8_t *data2, size_t data2_length, uint64_t n2,
                                                       uint64_t s2, uint64_t size2, uint64_t from, uint64_t to) {
    uint64_t answer[4];
    sleep_flat_compare_walk_part(SLEEP_REGISTER_LENT, SLEEP_LENT(tree2), SLEEP_LENT(signatures2), SLEEP_LENT(bitfield2),
                                 SLEEP_LENT(data2), n2, s2, size2, from, to, answer);
    return sleep_comparison_from(answer);
}

/* Coordinates grouped before storing: each word of 4 big-endian bytes but the first becomes its difference from the word before, modulo
 * 2^32; then come all first bytes, all second bytes, and so on, and the up to 3 bytes that remain, unchanged. The result has the length of
 * bytes and stands at the front of out, whose rest is as it was. Refusals: 7, 14. */
static inline sleep_answer sleep_group(const uint8_t *bytes, size_t bytes_length, uint8_t *out, size_t out_length) {
    uint64_t answer[3];
    sleep_flat_group(SLEEP_LENT(bytes), SLEEP_LENT(out), answer);
    return sleep_answer_from(answer);
}

/* The way back: what sleep_group made of some bytes becomes these bytes, at the front of out. Every byte string of at most
 * 65,536 bytes is taken, and sleep_group undoes this call as well. Refusals: 7, 14. */
static inline sleep_answer sleep_ungroup(const uint8_t *bytes, size_t bytes_length, uint8_t *out, size_t out_length) {
    uint64_t answer[3];
    sleep_flat_ungroup(SLEEP_LENT(bytes), SLEEP_LENT(out), answer);
    return sleep_answer_from(answer);
}

/* What a job will need, before any of its chunks is appended: out has the SLEEP_NEEDS_.. numbers for chunks of these lengths behind n chunks
 * of size bytes, appended singly, each signed, and one root hash made at the end. No register is lent, and n and size are believed. The list
 * has lengths_count numbers, 0 to 256. Refusals, in this order: 2, 16, 7, 9. */
static inline sleep_answer sleep_needs(uint64_t n, uint64_t size, const uint64_t *lengths, size_t lengths_count, uint64_t out[8]) {
    uint64_t answer[3];
    sleep_flat_needs(n, size, lengths_count == 0 ? &n : lengths, lengths_count, out, answer);
    return sleep_answer_from(answer);
}

/* A table for which no read waits, as if station 15 had been served: station 0 is looked at first. Always done. */
static inline sleep_answer sleep_fresh(uint64_t table[161]) {
    uint64_t answer[3];
    sleep_flat_fresh(table, answer);
    return sleep_answer_from(answer);
}

/* A read that waits from now on, behind those of its station: of a chunk of the register that is named (SLEEP_METADATA or SLEEP_CONTENT; any other
 * number is taken as the latter). No register is lent, and nothing else is checked. Refusals: 21, 22. */
static inline sleep_answer sleep_enter(uint64_t table[161], uint64_t station, uint64_t name, uint64_t chunk) {
    uint64_t answer[3];
    sleep_flat_enter(table, station, name, chunk, answer);
    return sleep_answer_from(answer);
}

/* A serving: of the station next in rising number, going round after the one last served, that has a read waiting, the read that came first. It
 * is answered as sleep_read answers it now, on the register that it names, and out is its part of that register's data; after a refusal (2 to 6,
 * 9, 18, 10, of the named register alone) out is as it was. The read leaves the table either way. Where no read waits, table and out stay as they are. */
static inline sleep_serving sleep_serve(uint64_t table[161], SLEEP_ARCHIVE_READ, uint64_t out[2]) {
    uint64_t answer[7];
    sleep_flat_serve(table, SLEEP_LENT(mtree), SLEEP_LENT(msignatures), SLEEP_LENT(mbitfield), SLEEP_LENT(mdata), mn, ms, msize,
                     SLEEP_LENT(ctree), SLEEP_LENT(csignatures), SLEEP_LENT(cbitfield), SLEEP_LENT(cdata), cn, cs, csize, out, answer);
    return sleep_serving_from(answer);
}

/* Writes the Header with these content bytes, SLEEP_CONTENT_BYTES of them, at the front of out, leaves the rest of out as it was, and gives its
 * length, SLEEP_HEADER_BYTES. Refusals: 15, 14. */
static inline sleep_answer sleep_write_header(const uint8_t *content, size_t content_length, uint8_t *out, size_t out_length,
                                              uint64_t *length) {
    uint64_t answer[3];
    sleep_flat_write_header(SLEEP_LENT(content), SLEEP_LENT(out), length, answer);
    return sleep_answer_from(answer);
}

/* Writes a Node, whose parts lie in bytes, at the front of out, leaves the rest of out as it was, and gives its length. Refusals: 15 for fields
 * out of their bounds and for parts that don't lie in bytes, then 14. */
static inline sleep_answer sleep_write_node(const uint8_t *bytes, size_t bytes_length, sleep_node node, uint8_t *out, size_t out_length,
                                            uint64_t *length) {
    uint64_t numbers[SLEEP_NODE_NUMBERS], answer[3];
    sleep_node_into(numbers, &node);
    sleep_flat_write_node(SLEEP_LENT(bytes), numbers, SLEEP_LENT(out), length, answer);
    return sleep_answer_from(answer);
}

/* Reads the Header that bytes are: out is the part of them that are its content bytes. Refusal: 15. */
static inline sleep_answer sleep_read_header(const uint8_t *bytes, size_t bytes_length, uint64_t out[2]) {
    uint64_t answer[3];
    sleep_flat_read_header(SLEEP_LENT(bytes), out, answer);
    return sleep_answer_from(answer);
}

/* Reads the Node that bytes are, with parts of them. Refusal: 15. */
static inline sleep_node_read sleep_read_node(const uint8_t *bytes, size_t bytes_length) {
    uint64_t answer[70];
    sleep_flat_read_node(SLEEP_LENT(bytes), answer);
    return sleep_node_read_from(answer);
}

/* Reads the Header that a chunk is, as a rule chunk 0, after the chunk was read as sleep_read does: out is a part of the chunk. Refusals: 2 to 6,
 * 9, 18, 10, and then 15 at the chunk's leaf. */
static inline sleep_answer sleep_header_of(SLEEP_REGISTER_READ, uint64_t chunk, uint64_t out[2]) {
    uint64_t answer[3];
    sleep_flat_header_of(SLEEP_REGISTER_LENT, chunk, out, answer);
    return sleep_answer_from(answer);
}

/* Reads the Node that a chunk is, likewise, with parts of the chunk. Refusals: 2 to 6, 9, 18, 10, and then 15 at the chunk's leaf. */
static inline sleep_node_read sleep_node_of(SLEEP_REGISTER_READ, uint64_t chunk) {
    uint64_t answer[70];
    sleep_flat_node_of(SLEEP_REGISTER_LENT, chunk, answer);
    return sleep_node_read_from(answer);
}

/* Seeks a path: the highest chunk number from 1 up whose Node has a path of the same bytes, or none. Chunk 0 as a Header, and then the records from
 * the latest down to the one found, are each read as sleep_read does and judged, and the first failure is the answer; what lies below the one found
 * isn't looked at. An empty register has none. Any path may be sought. Refusals: 2 to 6, and then of each chunk 18, 10 and 15. */
static inline sleep_found sleep_find(SLEEP_REGISTER_READ, const uint8_t *path, size_t path_length) {
    uint64_t answer[5];
    sleep_flat_find(SLEEP_REGISTER_LENT, SLEEP_LENT(path), answer);
    return sleep_found_from(answer);
}

/* A copy for n chunks with size data bytes, of which nothing is known yet: writes both headers, zero entries, zero bits and zero data, and no byte
 * behind the used sizes. No size is refused: with n = 0 and a size above 0 every later call answers 6; a size above 65,536 n may be filled by
 * packets whose given leaves no chunk has, and sleep_copy_audit then refuses the copy. Refusals: 2, 14. */
static inline sleep_answer sleep_make_copy(SLEEP_COPY_WRITTEN) {
    uint64_t answer[3];
    sleep_flat_make_copy(SLEEP_COPY_LENT, answer);
    return sleep_answer_from(answer);
}

/* Takes in the packet of a chunk, after it was checked against the root hash as sleep_check_packet does: writes the chunk's leaf, its siblings, the
 * parents on the way and the roots with their tree bits, and the chunk's bytes where they belong, sets its data bit and makes the Index of its bitfield
 * entry anew. Two packets that are both taken in, one right after the other, are taken in the other way round too, and leave the same images (proved:
 * CommuteForAll, crates/theorem_packets_commute/specs/Commute.antt). What it costs grows with the chunk and with the packet's path, not with n. Refusals: 2, 4, 5, 6 of the
 * copy unless a root is unknown, 9, 12, 13, 6 of the packet, 19. */
static inline sleep_answer sleep_take_in(SLEEP_COPY_WRITTEN, const uint8_t *packet, size_t packet_length, uint64_t chunk,
                                         const uint8_t root[32]) {
    uint64_t answer[3];
    sleep_flat_take_in(SLEEP_COPY_LENT, SLEEP_LENT(packet), chunk, root, answer);
    return sleep_answer_from(answer);
}

/* Whether the images are those of a copy: an entry that isn't known must be zeros, and its chunk not held; what is known is judged as sleep_audit judges
 * it, a parent only where both its children are known too, and a leaf by its data, which the descent to it finds: a stop is a wrong entry at the stop, and a
 * leaf whose descent meets an unknown entry is wrong itself. Data of unknown leaves are passed over. Refusals: 2, 4, 5, 6 unless a root is unknown, 10, 11. */
static inline sleep_answer sleep_copy_audit(SLEEP_COPY_READ) {
    uint64_t answer[3];
    sleep_flat_copy_audit(SLEEP_COPY_LENT, answer);
    return sleep_answer_from(answer);
}

/* Parts of a copy's audit, as sleep_audit_tree_part and sleep_audit_bitfield_part are of a register's. The place of 10 may lie outside the range, since the
 * descent to a leaf may stop elsewhere. Refusals: 2, 4, 5, 6 unless a root is unknown, and 10 or 11. */
static inline sleep_answer sleep_copy_audit_tree_part(SLEEP_COPY_READ, uint64_t from, uint64_t to) {
    uint64_t answer[3];
    sleep_flat_copy_audit_tree_part(SLEEP_COPY_LENT, from, to, answer);
    return sleep_answer_from(answer);
}
static inline sleep_answer sleep_copy_audit_bitfield_part(SLEEP_COPY_READ, uint64_t from, uint64_t to) {
    uint64_t answer[3];
    sleep_flat_copy_audit_bitfield_part(SLEEP_COPY_LENT, from, to, answer);
    return sleep_answer_from(answer);
}

/* The calls of a register on a copy: each gives what its namesake gives, and goes by no entry that isn't known. Refusals: 2, 4, 5, 20 at a root, 6, and
 * then as its namesake has them, with 20 in the turn of 10. */
static inline sleep_answer sleep_copy_root_hash(SLEEP_COPY_READ, uint8_t root[32]) {
    uint64_t answer[3];
    sleep_flat_copy_root_hash(SLEEP_COPY_LENT, root, answer);
    return sleep_answer_from(answer);
}

/* Refusals: 2, 4, 5, 20 at a root of n, 6, 9 for m above n, 20 at a root of m, from the left. */
static inline sleep_answer sleep_copy_old_root(SLEEP_COPY_READ, uint64_t m, uint8_t root[32]) {
    uint64_t answer[3];
    sleep_flat_copy_old_root(SLEEP_COPY_LENT, m, root, answer);
    return sleep_answer_from(answer);
}

/* Refusals: 2, 4, 5, 20 at a root, 6, 9, 20 at the leaf. The other entries may be unknown: it doesn't go down to the leaf. */
static inline sleep_answer sleep_copy_stored_leaf(SLEEP_COPY_READ, uint64_t chunk, uint8_t hash[32], uint64_t *length) {
    uint64_t answer[3];
    sleep_flat_copy_stored_leaf(SLEEP_COPY_LENT, chunk, hash, length, answer);
    return sleep_answer_from(answer);
}

/* Refusals: 2, 4, 5, 20, 6, 9, 10 or 20 on the way down. A chunk that isn't held has its place too. */
static inline sleep_answer sleep_copy_place(SLEEP_COPY_READ, uint64_t chunk, uint64_t out[2]) {
    uint64_t answer[3];
    sleep_flat_copy_place(SLEEP_COPY_LENT, chunk, out, answer);
    return sleep_answer_from(answer);
}

/* Refusals: 2, 4, 5, 20, 6, 9 for an offset above size, 10 or 20 on the way down. */
static inline sleep_answer sleep_copy_byte(SLEEP_COPY_READ, uint64_t offset, uint64_t out[2]) {
    uint64_t answer[3];
    sleep_flat_copy_byte(SLEEP_COPY_LENT, offset, out, answer);
    return sleep_answer_from(answer);
}

/* Refusals: 2, 4, 5, 20, 6, 9, 18, 10 or 20 on the way down, 10 for another leaf hash. */
static inline sleep_answer sleep_copy_read(SLEEP_COPY_READ, uint64_t chunk, uint64_t out[2]) {
    uint64_t answer[3];
    sleep_flat_copy_read(SLEEP_COPY_LENT, chunk, out, answer);
    return sleep_answer_from(answer);
}

/* Refusals: 2, 4, 5, 20, 6, 9, 18, 10 or 20 on the way down. The entries stay known; the packet brings the chunk back. */
static inline sleep_answer sleep_copy_release(const uint8_t *tree, size_t tree_length, uint8_t *bitfield, size_t bitfield_length,
                                              uint8_t *data, size_t data_length, uint64_t n, uint64_t size, uint64_t chunk) {
    uint64_t answer[3];
    sleep_flat_copy_release(SLEEP_COPY_LENT, chunk, answer);
    return sleep_answer_from(answer);
}

/* Refusals: 2, 4, 5, 20, 6. */
static inline sleep_answer sleep_copy_search(SLEEP_COPY_READ, uint64_t from, uint64_t out[2]) {
    uint64_t answer[3];
    sleep_flat_copy_search(SLEEP_COPY_LENT, from, out, answer);
    return sleep_answer_from(answer);
}

/* The short way. On every copy that sleep_copy_audit accepts, and of which every entry but the holes is known, the three give what sleep_copy_place,
 * sleep_copy_byte and sleep_copy_search give (proved: CopyShortAgreesForAll, crates/theorem_copies_agree/specs/Theorems.antt). Refusals of the two lookups: 2, 4, 5,
 * 20 at a root, 6, 9, then of each leaf that they come to 20, and 10; of the search: 2, 4, 5, 20, 6.
 * What sleep_copy_short_place gives may lie outside data on a copy that no audit accepted: compare out[0] + out[1] with size before you follow
 * it (see PARTS). */
static inline sleep_answer sleep_copy_short_place(SLEEP_COPY_READ, uint64_t chunk, uint64_t out[2]) {
    uint64_t answer[3];
    sleep_flat_copy_short_place(SLEEP_COPY_LENT, chunk, out, answer);
    return sleep_answer_from(answer);
}

static inline sleep_answer sleep_copy_short_byte(SLEEP_COPY_READ, uint64_t offset, uint64_t out[2]) {
    uint64_t answer[3];
    sleep_flat_copy_short_byte(SLEEP_COPY_LENT, offset, out, answer);
    return sleep_answer_from(answer);
}

static inline sleep_answer sleep_copy_short_search(SLEEP_COPY_READ, uint64_t from, uint64_t out[2]) {
    uint64_t answer[3];
    sleep_flat_copy_short_search(SLEEP_COPY_LENT, from, out, answer);
    return sleep_answer_from(answer);
}

/* Refusals: those of sleep_copy_read, 14. A copy hands on what it holds, under the register's root hash. */
static inline sleep_answer sleep_copy_make_packet(SLEEP_COPY_READ, uint64_t chunk, uint8_t *out, size_t out_length, uint64_t *length) {
    uint64_t answer[3];
    sleep_flat_copy_make_packet(SLEEP_COPY_LENT, chunk, SLEEP_LENT(out), length, answer);
    return sleep_answer_from(answer);
}

/* Refusals: those of sleep_copy_read, and then 15 at the chunk's leaf. */
static inline sleep_answer sleep_copy_header_of(SLEEP_COPY_READ, uint64_t chunk, uint64_t out[2]) {
    uint64_t answer[3];
    sleep_flat_copy_header_of(SLEEP_COPY_LENT, chunk, out, answer);
    return sleep_answer_from(answer);
}

static inline sleep_node_read sleep_copy_node_of(SLEEP_COPY_READ, uint64_t chunk) {
    uint64_t answer[70];
    sleep_flat_copy_node_of(SLEEP_COPY_LENT, chunk, answer);
    return sleep_node_read_from(answer);
}

/* Refusals: 2, 4, 5, 20, 6, and then of each chunk that is read 18, 10 or 20, and 15. */
static inline sleep_found sleep_copy_find(SLEEP_COPY_READ, const uint8_t *path, size_t path_length) {
    uint64_t answer[5];
    sleep_flat_copy_find(SLEEP_COPY_LENT, SLEEP_LENT(path), answer);
    return sleep_found_from(answer);
}

/* ---- JOURNALS
 * A journal holds a change of the ten files of an archive (docs/FORMAT.md, "The journal"): for each its old and its new state, and ranges of four
 * kinds. It is made range by range in a buffer, written to a file before any byte of the change is, and applied from there, again where it was
 * stopped. A state is 0 where the file is absent, else its length and 1. What a call says has numbers of its own, and a place: */
typedef struct {
    uint64_t number; /* SLEEP_JOURNAL_.. */
    uint64_t place;  /* done: the place in the journal behind what was read or written; else as below */
} sleep_journal_answer;

#define SLEEP_JOURNAL_DONE 0u
#define SLEEP_JOURNAL_LENGTH 1u     /* fewer than 216 bytes or more than 2^28; no room */
#define SLEEP_JOURNAL_FIRST 2u      /* it does not begin as a journal does */
#define SLEEP_JOURNAL_OWN_LENGTH 3u /* its own length is not its length */
#define SLEEP_JOURNAL_STATE 4u      /* place: the file whose states are wrong */
#define SLEEP_JOURNAL_RANGE 5u      /* place: where the range begins that is wrong, or of which there is none */
#define SLEEP_JOURNAL_GAP 6u        /* place: the file that is not covered from its old to its new length */
#define SLEEP_JOURNAL_HASH 7u
#define SLEEP_JOURNAL_MET 8u   /* place: the file whose state, as it is, is not between */
#define SLEEP_JOURNAL_BYTE 9u  /* place: the offset of the first byte of the file, as it is, that is not between */
#define SLEEP_JOURNAL_UNFIT 10u /* no such file or kind, or not as many bytes as kind and length ask */

static inline sleep_journal_answer sleep_journal_answer_from(const uint64_t answer[2]) {
    sleep_journal_answer said = {answer[0], answer[1]};
    return said;
}

/* Begins a journal in a buffer of at least 216 bytes: states has the old and the new state of file 0, of file 1, .. Done: 184, the first range's
 * place. Says: 1. */
static inline sleep_journal_answer sleep_journal_begin(uint8_t *journal, size_t journal_length, const uint64_t states[20]) {
    uint64_t answer[2];
    sleep_flat_journal_begin(SLEEP_LENT(journal), states, answer);
    return sleep_journal_answer_from(answer);
}

/* Puts a range at a place. Kind 1 takes length old and length new bytes, kind 2 new bytes alone, kind 3, a run of zeros, none, kind 4, a witness,
 * old bytes alone. Done: the next range's place. Nothing else is judged here: sleep_journal_end does. Says: 10, 1. */
static inline sleep_journal_answer sleep_journal_put(uint8_t *journal, size_t journal_length, uint64_t at, uint64_t file, uint64_t kind,
                                                     uint64_t offset, uint64_t length, const uint8_t *old_bytes, size_t old_bytes_length,
                                                     const uint8_t *new_bytes, size_t new_bytes_length) {
    uint64_t answer[2];
    sleep_flat_journal_put(SLEEP_LENT(journal), at, file, kind, offset, length, SLEEP_LENT(old_bytes), SLEEP_LENT(new_bytes), answer);
    return sleep_journal_answer_from(answer);
}

/* Ends a journal behind its last range: judges all of it as sleep_journal_check does, and then writes its length and its hash. Done: its length, at + 32;
 * so many bytes of the buffer are the journal. Says: 1, 2, 4, 5, 6, and has written nothing then. */
static inline sleep_journal_answer sleep_journal_end(uint8_t *journal, size_t journal_length, uint64_t at) {
    uint64_t answer[2];
    sleep_flat_journal_end(SLEEP_LENT(journal), at, answer);
    return sleep_journal_answer_from(answer);
}

/* Whether bytes are a journal, and its hash is right. Done: its length. Says, in this order: 1, 2, 3, 4, 5, 6, 7. */
static inline sleep_journal_answer sleep_journal_check(const uint8_t *journal, size_t journal_length) {
    uint64_t answer[2];
    sleep_flat_journal_check(SLEEP_LENT(journal), answer);
    return sleep_journal_answer_from(answer);
}

/* The old and the new state of a file. Says: 1, 10. */
static inline sleep_journal_answer sleep_journal_states(const uint8_t *journal, size_t journal_length, uint64_t file, uint64_t states[2]) {
    uint64_t answer[2];
    sleep_flat_journal_states(SLEEP_LENT(journal), file, states, answer);
    return sleep_journal_answer_from(answer);
}

/* Whether a file as it is, absent where there is 0, is between its states before and after. at is where its ranges begin: 184 for file 0, then what
 * the call for the file before answered. Of the bytes lent only those are read that ranges of kinds 1 and 4 hold. Done: where the next file's ranges
 * begin. Says: 1, 10, 8, 9. */
static inline sleep_journal_answer sleep_journal_between(const uint8_t *journal, size_t journal_length, uint64_t file, uint64_t at,
                                                         uint64_t there, const uint8_t *bytes, size_t bytes_length) {
    uint64_t answer[2];
    sleep_flat_journal_between(SLEEP_LENT(journal), file, at, there, SLEEP_LENT(bytes), answer);
    return sleep_journal_answer_from(answer);
}

/* The range at a place: range[0] to range[4] are file, kind, offset, length, and the place in the journal of the bytes that stand in the file after the
 * change. Done: the next range's place. Says: 1; 5 where there is no whole range, so behind the last one. */
static inline sleep_journal_answer sleep_journal_next(const uint8_t *journal, size_t journal_length, uint64_t at, uint64_t range[5]) {
    uint64_t answer[2];
    sleep_flat_journal_next(SLEEP_LENT(journal), at, range, answer);
    return sleep_journal_answer_from(answer);
}

/* The version of the archive that is linked; that of this header is SLEEP_VERSION. */
static inline uint64_t sleep_version(void) {
    return sleep_flat_version();
}

#undef SLEEP_REGISTER_LENT
#undef SLEEP_COPY_LENT
#undef SLEEP_LENT

#ifdef __cplusplus
}
#endif

#endif
