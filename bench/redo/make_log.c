/*
 * Makes a log that PostgreSQL 16 could write, as segment files of 16 MiB in the folder `archive` of the current
 * folder: of system 7, timeline 1, from 0/2000028 on.
 *
 *     make_log MIB BLOCKS
 *     make_log MIB rounds N
 *
 * It begins with what a backup leaves: a running-transactions record, an online checkpoint whose redo it is, and the
 * end of the backup. Then come transactions of one change each, with its commit, in the table with the file
 * 1663/16384/16385 of the columns (id int4, note text), whose rows take 104 bytes of a page. The first ones, a third,
 * insert as many rows into each block, one block after the other; the others update rows that are drawn by chance, each
 * in its block (heap-only tuples), as long as the block has room. After every 65,536th transaction stands a
 * running-transactions record. No further checkpoint comes, so no page image does.
 *
 * A page holds 75 tuples. Where the blocks have room for all versions of rows (no more than 70 a block), none is
 * removed, as where a snapshot is held all the time; else a block without room is pruned before its next update.
 *
 * With `rounds` each block has 15 rows, and is filled with versions, pruned and filled again N times; there are as many
 * blocks as such lives make MIB of log. The updates go to blocks that are drawn by chance, until each had its last one.
 *
 * Prints where the log begins and ends, and its records by kind.
 */
#include <inttypes.h>
#include <stdint.h>
#include <stdio.h>
#include <stdlib.h>
#include <string.h>
#include <sys/stat.h>

enum {
    PAGE = 8192,
    SEGMENT = 16 << 20,
    MAGIC = 0xD113,
    NOTE = 71,            /* bytes of a note */
    DATA = 4 + 1 + NOTE,  /* bytes of a tuple behind its header of 24: the id, the note's length byte, the note */
    TUPLE = 104,          /* bytes that a tuple takes in its page: 100, up to a multiple of 8 */
    LINES = 291,          /* lines that a page has at most (MaxHeapTuplesPerPage) */
    ROWS = 70,            /* rows that are inserted into a block at most */
    FEW = 15,             /* rows that are inserted into a block that is filled again and again */
    ROUND = 60            /* updates from one prune of such a block to the next: 75 tuples and 15 lines that lead on */
};

static const uint64_t START = 2 * (uint64_t)SEGMENT + 40;
static const uint32_t FIRST_XID = 700;

/* ---- the log's bytes: segments, pages, records */

static uint8_t segment[SEGMENT];
static uint64_t at;       /* where the next byte stands */
static uint64_t prev;     /* where the last record begins */
static uint64_t records;
static uint32_t crc_table[8][256];

static void fail(const char *what)
{
    fprintf(stderr, "make_log: %s\n", what);
    exit(1);
}

static void make_crc_table(void)
{
    for (uint32_t n = 0; n < 256; n++) {
        uint32_t c = n;
        for (int k = 0; k < 8; k++)
            c = c & 1 ? c >> 1 ^ 0x82F63B78 : c >> 1;
        crc_table[0][n] = c;
    }
    for (int n = 0; n < 256; n++)
        for (int k = 1; k < 8; k++)
            crc_table[k][n] = crc_table[k - 1][n] >> 8 ^ crc_table[0][crc_table[k - 1][n] & 255];
}

/* CRC-32C, eight bytes a step */
static uint32_t crc_over(uint32_t crc, const uint8_t *text, size_t len)
{
    for (; len >= 8; len -= 8, text += 8) {
        uint32_t low, high;
        memcpy(&low, text, 4);
        memcpy(&high, text + 4, 4);
        low ^= crc;
        crc = crc_table[7][low & 255] ^ crc_table[6][low >> 8 & 255] ^ crc_table[5][low >> 16 & 255] ^
              crc_table[4][low >> 24] ^ crc_table[3][high & 255] ^ crc_table[2][high >> 8 & 255] ^
              crc_table[1][high >> 16 & 255] ^ crc_table[0][high >> 24];
    }
    for (; len > 0; len--, text++)
        crc = crc >> 8 ^ crc_table[0][(crc ^ *text) & 255];
    return crc;
}

/* numbers are little-endian, as those of the machine that this is made for */
static uint8_t *put(uint8_t *to, const void *from, size_t len)
{
    memcpy(to, from, len);
    return to + len;
}

static uint8_t *u8(uint8_t *to, uint8_t n) { return put(to, &n, 1); }
static uint8_t *u16(uint8_t *to, uint16_t n) { return put(to, &n, 2); }
static uint8_t *u32(uint8_t *to, uint32_t n) { return put(to, &n, 4); }
static uint8_t *u64(uint8_t *to, uint64_t n) { return put(to, &n, 8); }

/* Writes the segment that ends at `at`, or the last one. */
static void store(void)
{
    char name[64];
    uint64_t number = (at - 1) / SEGMENT;
    snprintf(name, sizeof name, "archive/%08X%08X%08X", 1, (uint32_t)(number / 256), (uint32_t)(number % 256));
    FILE *file = fopen(name, "wb");
    if (!file || fwrite(segment, SEGMENT, 1, file) != 1 || fclose(file))
        fail("cannot write a segment");
    memset(segment, 0, SEGMENT);
}

/* Begins a page where the one before is full, with so many bytes of a record to come. */
static void open_page(uint32_t rem)
{
    if (at % PAGE != 0)
        return;
    if (at % SEGMENT == 0 && at > START)
        store();
    uint8_t *head = segment + at % SEGMENT;
    int is_first = at % SEGMENT == 0;
    uint8_t *to = u16(head, MAGIC);
    to = u16(to, (uint16_t)((rem > 0) | (is_first ? 2 : 0)));
    to = u32(to, 1);
    to = u64(to, at);
    to = u32(to, rem);
    to = u32(to, 0);
    if (is_first) {
        to = u64(to, 7);
        to = u32(to, SEGMENT);
        to = u32(to, PAGE);
    }
    at += (uint64_t)(to - head);
}

/* Appends a record whose text has room for the header's 24 bytes in front. */
static void append(uint8_t *text, uint8_t *end, uint32_t xid, uint8_t info, uint8_t manager)
{
    uint32_t len = (uint32_t)(end - text);
    uint8_t *to = u32(text, len);
    to = u32(to, xid);
    to = u64(to, prev);
    to = u8(to, info);
    to = u8(to, manager);
    to = u16(to, 0);
    uint32_t crc = crc_over(crc_over(0xFFFFFFFF, text + 24, len - 24), text, 20);
    u32(to, crc ^ 0xFFFFFFFF);
    open_page(0);
    prev = at;
    for (uint32_t done = 0; done < len;) {
        open_page(len - done);
        uint32_t piece = PAGE - at % PAGE;
        if (piece > len - done)
            piece = len - done;
        memcpy(segment + at % SEGMENT, text + done, piece);
        at += piece;
        done += piece;
    }
    at = (at + 7) / 8 * 8;
    records++;
}

/* The header of a record's only block, with so many bytes of data. */
static uint8_t *block_head(uint8_t *to, int will_init, uint16_t len, uint32_t block)
{
    to = u8(to, 0);
    to = u8(to, (uint8_t)(0x20 | (will_init ? 0x40 : 0)));
    to = u16(to, len);
    to = u32(to, 1663);
    to = u32(to, 16384);
    to = u32(to, 16385);
    return u32(to, block);
}

/* The header of main data of so many bytes. */
static uint8_t *main_head(uint8_t *to, uint8_t len)
{
    return u8(u8(to, 255), len);
}

/* ---- records without blocks */

static void running(uint32_t next)
{
    uint8_t text[64] = {0}, *to = main_head(text + 24, 24);
    to = u64(to, 0);
    to = u32(to, 0);
    to = u32(to, next);
    to = u32(to, next);
    append(text, u32(to, next - 1), 0, 0x10, 8);
}

static void checkpoint(void)
{
    uint8_t text[160] = {0}, *fields = main_head(text + 24, 88);
    u64(fields, START);
    u32(fields + 8, 1);
    u32(fields + 12, 1);
    u8(fields + 16, 1);
    u64(fields + 24, FIRST_XID);
    u32(fields + 36, 1);
    u32(fields + 52, 1);
    u32(fields + 80, FIRST_XID);
    append(text, fields + 88, 0, 0x10, 0);
}

static void backup_end(void)
{
    uint8_t text[64] = {0}, *to = main_head(text + 24, 8);
    append(text, u64(to, START), 0, 0x50, 0);
}

static void commit(uint32_t xid)
{
    uint8_t text[64] = {0}, *to = main_head(text + 24, 8);
    append(text, u64(to, (uint64_t)xid * 100), xid, 0x00, 1);
}

/* ---- the table as the primary has it */

/* A row: the line of its first version, the one that this names since a prune, that of the last version, and its note. */
struct row {
    uint16_t root, named, last;
    char note[NOTE];
};

/* A block: which of its lines are in use, how many lines, tuples and rows it has, the last id that made one dead, and
 * how often it was pruned. */
struct block {
    uint8_t used[LINES + 1];
    uint16_t lines, tuples, rows;
    uint32_t removed, prunes;
};

static struct block *blocks;
static struct row *rows; /* room for ROWS in each block */
static uint64_t inserts, updates, prunes;

static uint64_t draw(void)
{
    static uint64_t state = 88172645463325252u;
    state ^= state << 13;
    state ^= state >> 7;
    state ^= state << 17;
    return state >> 20;
}

/* The line that a new tuple takes: the first that is free, or one more (PageAddItemExtended). */
static uint16_t free_line(const struct block *b)
{
    uint16_t line = 1;
    while (line <= b->lines && b->used[line])
        line++;
    return line;
}

/* The room for a further tuple and its line (PageGetHeapFreeSpace). */
static int room(const struct block *b)
{
    int space = PAGE - 24 - 4 * b->lines - TUPLE * b->tuples - 4;
    return b->lines >= LINES && free_line(b) > b->lines ? 0 : space;
}

static uint16_t take_line(struct block *b)
{
    uint16_t line = free_line(b);
    if (room(b) < TUPLE)
        fail("a block is full");
    if (line > b->lines)
        b->lines = line;
    b->used[line] = 1;
    b->tuples++;
    return line;
}

/* A tuple's bytes behind its header. */
static void data_of(uint8_t *to, uint32_t id, const char *note)
{
    put(u8(u32(to, id), (NOTE + 1) << 1 | 1), note, NOTE);
}

static void draw_note(char *note)
{
    for (int i = 0; i < NOTE; i++)
        note[i] = (char)('a' + draw() % 26);
}

static void insert(uint32_t xid, uint32_t id, uint32_t block)
{
    struct block *b = &blocks[block];
    struct row *row = &rows[(uint64_t)block * ROWS + b->rows++];
    int is_first = b->lines == 0;
    uint8_t text[256], data[DATA];
    draw_note(row->note);
    row->root = row->named = row->last = take_line(b);
    data_of(data, id, row->note);
    uint8_t *to = main_head(block_head(text + 24, is_first, 5 + 1 + DATA, block), 3);
    uint8_t *payload = to;
    to = u8(u16(u16(payload, 2), 0x0802), 24);
    to = put(u8(to, 0), data, DATA);
    append(text, u8(u16(to, row->last), 0), xid, is_first ? 0x80 : 0x00, 10);
    inserts++;
}

/* How many bytes are the same from the front, and behind these from the end; less than 3 are none (log_heap_update). */
static void shared(const uint8_t *old, const uint8_t *new, uint16_t *prefix, uint16_t *suffix)
{
    uint16_t n = 0, m = 0;
    while (n < DATA && old[n] == new[n])
        n++;
    *prefix = n < 3 ? 0 : n;
    while (m < DATA - *prefix && old[DATA - 1 - m] == new[DATA - 1 - m])
        m++;
    *suffix = m < 3 ? 0 : m;
}

static void update(uint32_t xid, uint32_t id, uint32_t block, struct row *row)
{
    uint8_t text[256], old[DATA], new[DATA];
    uint16_t prefix, suffix, from = row->last;
    data_of(old, id, row->note);
    draw_note(row->note);
    data_of(new, id, row->note);
    shared(old, new, &prefix, &suffix);
    row->last = take_line(&blocks[block]);
    blocks[block].removed = xid;
    uint16_t middle = (uint16_t)(DATA - prefix - suffix);
    uint16_t len = (uint16_t)((prefix ? 2 : 0) + (suffix ? 2 : 0) + 5 + 1 + middle);
    uint8_t *to = main_head(block_head(text + 24, 0, len, block), 14);
    to = prefix ? u16(to, prefix) : to;
    to = suffix ? u16(to, suffix) : to;
    to = u8(u16(u16(to, 0x8002), 0x2802), 24);
    to = put(u8(to, 0), new + prefix, middle);
    to = u8(u16(u32(to, xid), from), 0);
    to = u8(to, (uint8_t)((prefix ? 0x20 : 0) | (suffix ? 0x40 : 0)));
    append(text, u16(u32(to, 0), row->last), xid, 0x40, 10);
    updates++;
}

/* Frees the lines of all versions that are neither a row's first nor its last; a first one that is not the last names
 * that (heap_page_prune, heap_page_prune_execute). */
static void prune(uint32_t block)
{
    struct block *b = &blocks[block];
    struct row *first = &rows[(uint64_t)block * ROWS];
    uint8_t text[1024], data[4 * ROWS + 2 * LINES], *to = data, kept[LINES + 1] = {0};
    uint16_t redirects = 0;
    for (struct row *row = first; row < first + b->rows; row++) {
        kept[row->root] = kept[row->last] = 1;
        if (row->named == row->last)
            continue;
        row->named = row->last;
        to = u16(u16(to, row->root), row->last);
        redirects++;
    }
    for (uint16_t line = 1; line <= b->lines; line++) {
        if (!b->used[line] || kept[line])
            continue;
        b->used[line] = 0;
        to = u16(to, line);
    }
    while (b->lines > 0 && !b->used[b->lines])
        b->lines--;
    b->tuples = b->rows;
    uint16_t len = (uint16_t)(to - data);
    to = put(main_head(block_head(text + 24, 0, len, block), 9), data, len);
    to = u16(u16(u32(to, b->removed), redirects), 0);
    append(text, u8(to, 0), 0, 0x10, 9);
    b->removed = 0;
    b->prunes++;
    prunes++;
}

/* ---- the whole */

/* Updates a row that is drawn by chance: in a block that is drawn and pruned where it has no room, or else in the next
 * one that has room. */
static void update_some(uint32_t xid, uint32_t count, uint32_t each, int may_prune)
{
    uint32_t block = (uint32_t)(draw() % count), number = (uint32_t)(draw() % each);
    if (may_prune && room(&blocks[block]) < TUPLE && blocks[block].removed != 0)
        prune(block);
    for (uint32_t passed = 0; room(&blocks[block]) < TUPLE; passed++) {
        if (passed == count)
            fail("all blocks are full");
        block = (block + 1) % count;
    }
    update(xid, block * each + number, block, &rows[(uint64_t)block * ROWS + number]);
}

/* The blocks that are not filled for the last time yet. */
static uint32_t *open_blocks, open_count;

/* Updates a row that is drawn by chance, in a block that is drawn among those that are open: where it has no room it is
 * pruned, or was pruned so often as it is to be, and is open no more. Answers whether a block was open. */
static int update_open(uint32_t xid, uint32_t rounds)
{
    while (open_count > 0) {
        uint32_t place = (uint32_t)(draw() % open_count), block = open_blocks[place];
        if (room(&blocks[block]) < TUPLE && blocks[block].prunes == rounds) {
            open_blocks[place] = open_blocks[--open_count];
            continue;
        }
        if (room(&blocks[block]) < TUPLE)
            prune(block);
        uint32_t number = (uint32_t)(draw() % FEW);
        update(xid, block * FEW + number, block, &rows[(uint64_t)block * ROWS + number]);
        return 1;
    }
    return 0;
}

static void begin(uint64_t count)
{
    blocks = calloc(count, sizeof *blocks);
    rows = calloc(count * ROWS, sizeof *rows);
    open_blocks = calloc(count, sizeof *open_blocks);
    if (!blocks || !rows || !open_blocks)
        fail("no memory");
    for (uint64_t block = 0; block < count; block++)
        open_blocks[open_count++] = (uint32_t)block;
    if (mkdir("archive", 0777))
        fail("cannot make the folder archive");
    make_crc_table();
    at = 2 * (uint64_t)SEGMENT;
    prev = START - 0x90;
    running(FIRST_XID);
    checkpoint();
    backup_end();
}

/* The end of a transaction. */
static void end_of(uint32_t xid)
{
    commit(xid);
    if ((xid - FIRST_XID) % 65536 == 65535)
        running(xid + 1);
}

static void inserts_and_updates(uint64_t mib, uint64_t count, uint64_t each, uint64_t expected)
{
    begin(count);
    for (uint32_t xid = FIRST_XID; at < START + (mib << 20); xid++) {
        uint32_t number = xid - FIRST_XID;
        if (number < count * each)
            insert(xid, number, (uint32_t)(number / each));
        else
            update_some(xid, (uint32_t)count, (uint32_t)each, expected > 70 * count);
        end_of(xid);
    }
}

static void filled_again(uint64_t count, uint32_t rounds)
{
    begin(count);
    uint32_t xid = FIRST_XID;
    for (; xid - FIRST_XID < count * FEW; xid++) {
        insert(xid, xid - FIRST_XID, (xid - FIRST_XID) / FEW);
        end_of(xid);
    }
    for (; update_open(xid, rounds); xid++)
        end_of(xid);
}

static int usage(void)
{
    fprintf(stderr, "usage: make_log MIB BLOCKS, with 32 to 1000 BLOCKS for each MIB\n"
                    "       make_log MIB rounds N, with N from 1 to 1000\n");
    return 2;
}

int main(int argc, char **argv)
{
    uint64_t mib = argc > 2 ? strtoull(argv[1], NULL, 10) : 0, count;
    if (mib < 1 || mib > 2000)
        return usage();
    if (argc == 4 && strcmp(argv[2], "rounds") == 0) {
        uint64_t rounds = strtoull(argv[3], NULL, 10);
        /* so many bytes one block's inserts, its updates, and its prunes have */
        count = (mib << 20) / (FEW * 177 + (rounds + 1) * ROUND * 185 + rounds * 241);
        if (rounds < 1 || rounds > 1000 || count < 1)
            return usage();
        filled_again(count, (uint32_t)rounds);
    } else {
        count = argc == 3 ? strtoull(argv[2], NULL, 10) : 0;
        uint64_t expected = (mib << 20) / 181; /* so many bytes a transaction has */
        uint64_t each = count ? expected / 3 / count : 0;
        if (count < 1 || count > 1000000 || each < 1 || each > 62)
            return usage();
        inserts_and_updates(mib, count, each, expected);
    }
    store();
    printf("0/%" PRIX64 " 0/%" PRIX64 " blocks=%" PRIu64 " records=%" PRIu64 " inserts=%" PRIu64 " updates=%" PRIu64
           " prunes=%" PRIu64 "\n", START, at, count, records, inserts, updates, prunes);
    return 0;
}
