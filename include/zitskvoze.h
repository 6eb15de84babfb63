/* The calls of the label register for hosts in C (C99 on) and C++ (C++11 on): a proved key-value store in one module of
 * persistent memory.
 *
 * The library keeps, under each 64-bit key, the exact bytes of a value (0 to 4,088 of them, or to 65,528 in a register
 * with large chunks), and survives a power cut at any moment. It has no heap, no thread, no file and no state of its own: the
 * host lends it everything, and carries out on the device what each step reports. This file is the manual of the calls.
 * The rules that they are proved against are R1.. in docs/RULES.md; what module, processor and host are taken to do is
 * F1.. in crates/spec/specs/Medium.antt.
 *
 * WHAT THE HOST LENDS
 *
 * - image: the persistent memory; header, directory and log. It is the register. 4 to 504 chunks, each of 4,096 bytes
 *   (small) or each of 65,536 (large), aligned to 64. A formatting is told which, by the power of two: 12 or 16. The
 *   header holds it, so that an opening is told nothing, and zkv_power tells it of an image.
 * - table: the key table, volatile words that each opening fills anew. Any number of words, aligned to 8.
 * - record: the station record (zkv_record, 90,288 bytes, aligned to 8): what is open, staged and unfinished. Volatile.
 * - value: the bytes of a put, 0 to 4,088, or to 65,528 with large chunks. Any alignment. It is lent to that call alone.
 *
 * The host allocates and frees all of them; the library keeps no pointer after a call returns. The staged values lie in
 * the record's buffer, so `value` may be reused as soon as zkv_put has returned. Fields of the record are nobody's
 * business but the library's. Make a new record by zeroing it: `zkv_record r = {0};`, nothing is open in it.
 * A table of t words holds t / 4 keys, rounded down, at most 65,536 (ZKV_TABLE_WORDS_MAX words hold them).
 * Every call is lent the same image, table and record as the call before, with the same lengths. Only an opening may be
 * lent another record and table; its table must not be smaller than at the opening before.
 * Areas lent to one call must not overlap, and no pointer may be null, even where the length is 0.
 *
 * BEGUN CALLS AND STEPS
 *
 * A call that writes is begun (zkv_format, zkv_put, zkv_put_at, zkv_delete, zkv_delete_at, zkv_commit, zkv_clean answer
 * ZKV_BEGUN with a number of actions a) and then stepped: exactly a + 1 calls of zkv_step, the last of which answers
 * ZKV_END. Until then no other call can be begun (8). A staging has 0 actions, so one step, but for a value of more
 * than 256 bytes, which is written to a block of its own now: a store for the length and for each 8 bytes, a flush for
 * each line, and two actions more where a free chunk is taken. A commit of b lines has 9 b + 4 actions; a cleaning that
 * copies b lines has 9 b + 7, and 3 where it copies none; a formatting has 582.
 *
 * What a step answers, and what the host does before the next step:
 * - ZKV_STORE, first = word, second = value: nothing. The word at byte 8 * first of the image is already stored.
 * - ZKV_FLUSH, first = line: start the write-back of the 64 bytes at image + 64 * first (clwb or the like).
 * - ZKV_FENCE: wait until every write-back started before is durable (sfence; msync where the image is a file's pages).
 * - ZKV_END, first = entries copied by a cleaning, else 0: nothing. The call is done; a commit's batch is durable.
 * - ZKV_IDLE: nothing was begun.
 * - ZKV_REFUSED, first = 1: a lent length is unlike that at the begin. Step again with the right ones.
 *
 * A step's report is the image's whole change. A batch is acknowledged to anybody only after the ZKV_END of its commit.
 *
 * Of a store's report a host needs nothing, so zkv_run takes several steps in one call: until one is to be told, whose
 * report it answers. Every step before that one stored a word, by one 8-byte move and in the order of the steps. So it
 * makes all stores that come next and answers the flush, fence, end, idle or refusal behind them, never ZKV_STORE: a
 * commit of b lines takes b + 4 calls of zkv_run, and still 9 b + 5 steps. What the host does at each report is the
 * same, and a power cut falls between the stores of a run as between steps. The two calls may take turns.
 * - zkv_run: to get a begun call done. It is the quicker one.
 * - zkv_step: where each store is to be seen, counted, or paused at (zkv --pause, tests, a device that is told every
 *   store).
 *
 * WHICH CALL MAY FOLLOW WHICH
 *
 * The record is in one of four states:
 * - closed: a zeroed record, after a refused opening, or after the end of a formatting. zkv_open and zkv_format may
 *   follow; other calls get 2.
 * - open, nothing staged: after ZKV_OPENED, the end of a commit or cleaning, or ZKV_ABANDONED. zkv_put, zkv_delete,
 *   zkv_look_up, zkv_choose, zkv_clean, zkv_open and zkv_format may follow; zkv_commit and zkv_abandon get 14.
 * - open, something staged: after the end of a staging. All of these may follow but zkv_clean, which gets 15.
 * - unfinished: after ZKV_BEGUN. zkv_step, zkv_run and zkv_open may follow, and zkv_look_up but in a formatting; other
 *   calls get 8 (or 2, in a formatting that was begun on a closed record). In the other states a step or run answers
 *   ZKV_IDLE and changes nothing.
 * What is said here of zkv_put and zkv_delete holds for zkv_put_at and zkv_delete_at; of zkv_look_up, for
 * zkv_look_up_version, zkv_list_keys and zkv_list_key; of zkv_choose, for zkv_chunk and zkv_empty_chunk. The calls that
 * are lent no table answer in every state.
 *
 * A new image: zkv_format, step to its end, zkv_open. An image from before: zkv_open. A put that lasts: zkv_put, step
 * to the end, zkv_commit, step to the end. Up to 16 puts and deletes (4,096 bytes of entries: 16 bytes and the value,
 * rounded up to 8, for each) may be staged before one commit, which makes all of them last; a power cut in it leaves
 * all or none. When a commit gets 13: zkv_abandon, then zkv_choose and zkv_clean with the chunk that it names, stepped
 * to the end, then stage and commit again; when zkv_choose gets 16, or zkv_clean 13, no log chunk is worth cleaning.
 * zkv_choose names log chunks alone: a data chunk whose large values were all superseded or deleted is named by
 * zkv_empty_chunk, and freed by zkv_clean with its number (3 actions). Else the image is full of present values.
 *
 * Begin a commit only while a free chunk stands (zkv_free_chunks is not 0). A power cut in a cleaning can leave none; a
 * commit may then go into the one chunk that could still be freed, and the register is stuck: every commit and every
 * cleaning gets 13 for good. So after an opening that finds no free chunk, and before any commit, choose and clean
 * once, to the end: that copies nothing, is never refused, and leaves a free chunk; from then on one stands until the
 * next power cut. zkv_make_room looks and does it: a host that calls it after each opening has kept the rule, and its
 * register is never stuck. An image that was made in another way may be stuck, or full, already.
 *
 * Two windows that change one value, so that neither undoes what the other did:
 * 1. zkv_look_up_version: the value, and its version v. While the value is being changed, others may make calls.
 * 2. zkv_put_at (or zkv_delete_at) for v, stepped to the end, then zkv_commit, likewise. The host makes all of this one
 *    unit, by a lock of those who write: no call of another window comes in between, but one that looks up or lists.
 * 3. Where 2 gets 17, another has staged or committed an item of the key since: again from 1. (Or the key was deleted
 *    already, and a cleaning has dropped its entries since.)
 * What is staged belongs to the window that staged it, which commits or abandons it; another one that gets 17 waits for
 * that, then begins again from 1. If it abandoned the item and staged its own for v instead, the first window's
 * zkv_commit would end as if its change were there, and would have committed the other one.
 * A value that must not be there yet is put for version 0. An absent key has that version only where it is unknown: a
 * deleted one that still has an entry has its delete's, the highest that zkv_entries says of the key.
 * Where 2 gets 13, or 7, v was right. The cleaning that follows may drop the last entry of a deleted key, which then is
 * unknown and has version 0, so that v would get 17: a host that has let nobody else change the register since (it has
 * that lock) stages again by zkv_put. zkv_make_room may drop such an entry, too.
 *
 * LOOKING UP WHILE A CALL IS UNFINISHED
 *
 * Between the steps of a staging, a commit or a cleaning zkv_look_up, zkv_look_up_version, zkv_list_keys and
 * zkv_list_key answer, so that a label can be reprinted while others are put:
 * - until the call's last fence is reported: from the register as it was before the call, with the places, lengths and
 *   versions of then;
 * - from that report on, before and after the ZKV_END: from the register that the call makes.
 * The last fence of a commit or a cleaning is its last action, so the report before the ZKV_END; with zkv_run the
 * register changes in the run that answers it. A staging has no fence: the register before it is also the one that it
 * makes, as staged items are unseen. A cleaning changes places alone. In a formatting of an open register these calls
 * get 8. Each answer is that of a register which a power cut at that point may leave.
 * What a host with a second thread does:
 * - It takes a lock round every call, steps and look-ups too, and may give it back between any two of them.
 * - It copies a value out under the lock, or looks it up again. The part that a look-up answered stays unaltered until
 *   the next last fence of a commit or cleaning, of the unfinished call or a later one, or the end of a formatting is
 *   reported, or the register is opened in the middle of a call. From then on a superseded value's block, or a cleaned
 *   chunk, may be written again.
 * - It keeps the lock from the report of a fence until that fence is carried out, if it is to hand out only what lasts:
 *   after the report of the last fence look-up answers what the call makes, and only the fence makes that durable.
 *
 * REFUSALS
 *
 * What was refused did not happen: a host looks at every answer. A refusal leaves image, table and record as they were;
 * but a refused opening zeroes the table and closes the record. The numbers are the enum zkv_refusal, in the order of
 * the rules; zkv_sentence gives the words. Where several apply, the answer of an opening is the lowest; of zkv_format 1
 * before 8; of the other calls the first in the order 2, 1, 8, 15, 9, 11, 17, 12, 10, 7, 14, 16, 13.
 *
 * CAVEATS, AND WHAT TO DO
 *
 * - An opening in the middle of an unfinished call, with no power cut in between, is outside the promise: it is safe,
 *   but may show a batch that a later cut takes back. Step to the end first.
 * - A process that was killed and not the power: the caches, or the system's pages, may still hold unfenced words.
 *   Write back the whole image and fence (or fsync its file) before opening; then it is as after a cut that kept every
 *   latest word, and the promise holds.
 * - Formatting an image that holds a register destroys it. zkv_format does not ask: the host does.
 * - Memory altered behind the calls' back (image, table or record): every call is still safe, reads and writes nothing
 *   outside what is lent, and ends after its count; but any number of the table may come, and values may be wrong. A
 *   reported word or line may lie past the image: no byte of it was changed then, and there is nothing to write back.
 *   zkv_finish passes over it; hosts that step by themselves must too (line < bytes / 64). Open again.
 * - Lengths must be true: a length above what is really there is beyond any proof.
 * - The archive is for x86-64 Linux. Words are little-endian, so an image may be moved between machines of that kind.
 * - One call at a time, one writer to an image. But calls that are lent a const record, or an image alone, only read
 *   record, image and table, so that several threads may make them at once, each with words of its own for what they
 *   answer, while no other call runs, a step included. The library has no lock: the host needs one, also between
 *   processes (the program zkv takes a lock on the image's file).
 * - Where only the pages of a file stand behind the image, a fence is an msync; hosts on persistent memory map it with
 *   MAP_SYNC, else a flushed line may be durable in a page that the file does not have yet.
 * - A word must reach the medium whole. Aligned 8-byte stores do; tests/one_move.sh looks at the compiled code. Do not
 *   build the library in a way that changes it (instrumentation of its stores, another back end).
 * - The format has no checksum: a byte of a value that is changed behind the calls' back opens as another value (16 to
 *   83 of 100 one-bit flips in committed lines did, more of them the longer the labels are). Hold what was printed
 *   against the register, and keep a digest of the image elsewhere.
 * - A table too small for the image's keys makes a refused opening slow: up to some 70 times an accepted one, whatever
 *   the table's length. Lend one of ZKV_TABLE_WORDS_MAX words where memory allows.
 * - Stack, with chunks of either size: an opening takes some 550 KB, and so does a cleaning's last step where a key's
 *   entries stand twice; the begin of a cleaning (zkv_clean) some 270 KB, zkv_choose some 230 KB, zkv_fault some
 *   1.6 MB. The other calls take a few KB.
 * - The log only grows until it is cleaned: superseded and deleted values take space until then, and known keys include
 *   deleted ones that still have an entry. Clean when time allows, or when 13 comes; it may take several cleanings
 *   until a commit finds space. Commits leave a free chunk to clean into (they take one only where three are free, two
 *   for deletes alone), so that cleaning a chosen chunk gets 13 only where the host did not keep the rule above, or in
 *   an image that was made in another way. In an image full of present values even a delete may get 13.
 * - A cleaning changes no value; after its last fence the parts that zkv_look_up answered before are no longer the
 *   values' places.
 * - Each put or delete of a key has a version, one above the key's highest. The last one, 1,048,575, is kept for a
 *   delete: a key at 1,048,574 gets 12 for a put and can be deleted. When its entries are cleaned away it begins at 1
 *   again. A put at the last version, which images from before this rule may hold, is opened and read, and gets 12 for
 *   both.
 * - A version in hand says nothing across a delete and a cleaning: as the numbers begin at 1 again, the same one may
 *   come to stand for another value. While the key is present, no cleaning changes its version.
 */
#ifndef ZITSKVOZE_H
#define ZITSKVOZE_H

#include <stddef.h>
#include <stdint.h>

#ifdef __cplusplus
extern "C" {
#endif

#define ZKV_VERSION "1.0"

enum {
    ZKV_POWER_SMALL = 12,     /* the powers of two that chunks may have, as zkv_format is told */
    ZKV_POWER_LARGE = 16,
    ZKV_CHUNK_BYTES = 4096,   /* of a small chunk */
    ZKV_LARGE_CHUNK_BYTES = 65536,
    ZKV_CHUNKS_MIN = 4,       /* of either size */
    ZKV_CHUNKS_MAX = 504,
    ZKV_LINE_BYTES = 64,
    ZKV_VALUE_MAX = 4088,     /* in a register with small chunks */
    ZKV_LARGE_VALUE_MAX = 65528,
    ZKV_LOG_VALUE_MAX = 256,  /* a longer value goes to a block */
    ZKV_BATCH_ITEMS = 16,
    ZKV_KEYS_MAX = 65536,
    ZKV_TABLE_WORDS_MAX = 262144,
    ZKV_FORMAT_ACTIONS = 582
};

/* What a report says. ZKV_PART is not answered by the calls below. */
enum zkv_kind {
    ZKV_REFUSED = 0,
    ZKV_BEGUN = 1,
    ZKV_STORE = 2,
    ZKV_FLUSH = 3,
    ZKV_FENCE = 4,
    ZKV_END = 5,
    ZKV_IDLE = 6,
    ZKV_OPENED = 7,
    ZKV_ABANDONED = 8,
    ZKV_CHOSEN = 9,
    ZKV_PART = 10
};

/* Why a call is refused. */
enum zkv_refusal {
    ZKV_IMAGE_LENGTH = 1,
    ZKV_NOT_OPEN = 2,
    ZKV_DIRECTORY_WRONG = 3,
    ZKV_ENTRY_WRONG = 4,
    ZKV_BLOCK_WRONG = 5,
    ZKV_TOPS_DISAGREE = 6,
    ZKV_TABLE_FULL = 7,
    ZKV_UNFINISHED = 8,
    ZKV_TOO_LONG = 9,
    ZKV_BATCH_FULL = 10,
    ZKV_KEY_ABSENT = 11,
    ZKV_VERSION_SPENT = 12,
    ZKV_NO_SPACE = 13,
    ZKV_NOTHING_STAGED = 14,
    ZKV_BATCH_STAGED = 15,
    ZKV_NOT_CLEANABLE = 16,
    ZKV_OTHER_VERSION = 17
};

/* The sentence of a refusal's number. It is in the archive too, for hosts in other languages. */
inline const char *zkv_sentence(uint64_t number)
{
    switch (number) {
    case ZKV_IMAGE_LENGTH:
        return "the image's length is not 4 to 504 chunks of 4,096 or 65,536 bytes, or a lent length is unlike that at the opening";
    case ZKV_NOT_OPEN:
        return "the header is wrong, its chunks are unlike the image's length, or no register is open";
    case ZKV_DIRECTORY_WRONG:
        return "a directory word is wrong";
    case ZKV_ENTRY_WRONG:
        return "an entry of the log is wrong";
    case ZKV_BLOCK_WRONG:
        return "a value's block is wrong: its place, its length or its fill";
    case ZKV_TOPS_DISAGREE:
        return "the newest entries of a key are not equal in every word, or two keys share a block";
    case ZKV_TABLE_FULL:
        return "the keys do not fit the key table";
    case ZKV_UNFINISHED:
        return "a call is unfinished";
    case ZKV_TOO_LONG:
        return "the value is too long";
    case ZKV_BATCH_FULL:
        return "the batch is full: 16 items or 4,096 bytes";
    case ZKV_KEY_ABSENT:
        return "the key is absent";
    case ZKV_VERSION_SPENT:
        return "the key's versions are used up: a put has at most 1,048,574, a delete 1,048,575";
    case ZKV_NO_SPACE:
        return "there is no space left in the image";
    case ZKV_NOTHING_STAGED:
        return "nothing is staged";
    case ZKV_BATCH_STAGED:
        return "a batch is staged";
    case ZKV_NOT_CLEANABLE:
        return "the chunk cannot be cleaned, or none is worth it";
    case ZKV_OTHER_VERSION:
        return "the key's version is not the one named";
    default:
        return "no refusal has this number";
    }
}

/* The station record: plain memory of this size, read and written by the calls alone. */
typedef struct zkv_record {
    uint64_t word[11286];
} zkv_record;

/* What a call answers: a kind, and two numbers that are 0 where the kind has none. */
typedef struct zkv_report {
    uint64_t kind, first, second;
} zkv_report;

/* What a chunk holds (zkv_chunk). `refused` is 0, or a refusal's number with 0 in all others. `role` is zkv_role's;
 * `size` the committed lines of a log chunk, or the units of 256 bytes of each block of a data chunk. Of a log chunk's
 * entries `live` are the puts that the register goes by, `deletes` the deletes that it goes by, `superseded` all others
 * (a copy that is equal to the entry it goes by is one of these too). A data chunk has `blocks`, and `used` of them
 * hold a present value. */
typedef struct zkv_chunk_row {
    uint64_t refused, role, size, live, deletes, superseded, blocks, used;
} zkv_chunk_row;

enum zkv_role {
    ZKV_FREE_CHUNK = 0,
    ZKV_LOG_CHUNK = 1,
    ZKV_DATA_CHUNK = 2,
    ZKV_WRONG_CHUNK = 3
};

/* An entry of a key that stands in the log (zkv_entry). `found` is 1, or 0 with 0 in all others. `place` is its first
 * word in the image, so byte 8 * place; `op` 1 for a put, 2 for a delete. The value of a put with 0 in `block` is the
 * `field` bytes from byte 8 * place + 16 on; with 1 its value is in the block at unit `field`, so byte 256 * field,
 * which holds it only while `chosen` is 1: later another value may be there. `chosen` is 1 where the register goes by
 * the entry. */
typedef struct zkv_key_entry {
    uint64_t found, place, op, version, block, field, chosen;
} zkv_key_entry;

/* The words of an entry as zkv_entries writes them, in this order: each means what it does in zkv_key_entry. */
enum zkv_entry_word {
    ZKV_ENTRY_PLACE = 0,
    ZKV_ENTRY_OP = 1,
    ZKV_ENTRY_VERSION = 2,
    ZKV_ENTRY_BLOCK = 3,
    ZKV_ENTRY_FIELD = 4,
    ZKV_ENTRY_CHOSEN = 5,
    ZKV_ENTRY_WORDS = 6       /* how many they are */
};

/* Where a fault is (zkv_fault). `refusal` is 0, or 1 to 6 as an opening answers it. `word` is a word of the image, so
 * byte 8 * word: of 2 a word of the header (7 where only the sum is wrong), of 3 the first wrong directory word and
 * `chunk` its chunk; of 4 to 6 the first word of an entry, in `chunk`. Of 4 `before` entries of the log stand before
 * it, by chunk, then offset, and are right. What is not said is 0. */
typedef struct zkv_place {
    uint64_t refusal, chunk, word, before;
} zkv_place;

/* Begins a formatting: the image is to hold an empty register with chunks of 2^power bytes, ZKV_POWER_SMALL or
 * ZKV_POWER_LARGE. A number is absent where its `given` is 0. The record may be closed or open; the end of the formatting
 * leaves it closed, with nothing staged. The table is not touched. ZKV_BEGUN 582, or refused: 1 (another power, or a
 * length that is not 4 to 504 such chunks), 8. */
zkv_report zkv_format(zkv_record *record, const uint8_t *image, size_t bytes, const uint64_t *table, size_t words,
                      uint64_t power, uint64_t station_given, uint64_t station, uint64_t centre_given, uint64_t centre);

/* Opens the register of the image, whatever record and table hold, and fills the table; how large its chunks are is in
 * the header. It forgets staged items and an unfinished call. ZKV_OPENED, or refused: 1 to 7; the table is then all zero
 * and the record closed. */
zkv_report zkv_open(zkv_record *record, const uint8_t *image, size_t bytes, uint64_t *table, size_t words);

/* Begins staging a put of `length` bytes, which are copied into the record; 9 where they are more than a chunk's less 8.
 * Look-up does not see it before the last fence of its commit. ZKV_BEGUN with 0 actions for a value of at most
 * ZKV_LOG_VALUE_MAX bytes, else with those that write its block; or refused: 2, 1, 8, 9, 12, 10, 7, 13. A block that was
 * staged and then abandoned, or superseded, is used again. A put that gets 13 (no block is to be had) leaves staged what
 * was staged before it: commit that, or forget it by zkv_abandon where all or none of the batch is to last; then clean,
 * and stage again what is missing. */
zkv_report zkv_put(zkv_record *record, const uint8_t *image, size_t bytes, const uint64_t *table, size_t words,
                   uint64_t key, const uint8_t *value, size_t length);

/* The same for the version named: it is staged only if that is the key's highest version, staged items counted (0 for a
 * key that is neither known nor staged; a deleted key that still has an entry has its delete's version). ZKV_BEGUN as
 * zkv_put, or refused: 2, 1, 8, 9, 17, 12, 10, 7, 13. */
zkv_report zkv_put_at(zkv_record *record, const uint8_t *image, size_t bytes, const uint64_t *table, size_t words,
                      uint64_t key, const uint8_t *value, size_t length, uint64_t version);

/* Begins staging a delete of a present key (staged items counted). One step ends it.
 * ZKV_BEGUN 0, or refused: 2, 1, 8, 11, 12, 10, 7. */
zkv_report zkv_delete(zkv_record *record, const uint8_t *image, size_t bytes, const uint64_t *table, size_t words,
                      uint64_t key);

/* The same for the version named, as zkv_put_at. ZKV_BEGUN 0, or refused: 2, 1, 8, 11, 17, 12, 10, 7. */
zkv_report zkv_delete_at(zkv_record *record, const uint8_t *image, size_t bytes, const uint64_t *table, size_t words,
                         uint64_t key, uint64_t version);

/* Begins the commit of the staged items, in the order of their staging. ZKV_BEGUN 9 b + 4 for b lines, or refused:
 * 2, 1, 8, 14, 13. After 13 the items stay staged, and every later commit carries them: forget them by zkv_abandon, or
 * they are refused, or committed, together with what is staged later. A cleaning is refused while they stay staged
 * (15), so: abandon, clean, stage again, commit. */
zkv_report zkv_commit(zkv_record *record, const uint8_t *image, size_t bytes, const uint64_t *table, size_t words);

/* Forgets the staged items. ZKV_ABANDONED, or refused: 2, 1, 8, 14. */
zkv_report zkv_abandon(zkv_record *record, const uint8_t *image, size_t bytes, const uint64_t *table, size_t words);

/* Chooses the chunk whose cleaning copies the fewest bytes, among log chunks that would take fewer lines afterwards;
 * of equals the one with the most committed lines, and of those the highest number. Staged items play no part.
 * ZKV_CHOSEN with first = chunk, or refused: 2, 1, 8, 16 where none is worth it. */
zkv_report zkv_choose(const zkv_record *record, const uint8_t *image, size_t bytes, const uint64_t *table, size_t words);

/* Begins the cleaning of a chunk: what of it is needed is copied to another chunk, then it is free. The register
 * stays as it is; a power cut in it leaves entries twice, which an opening accepts. Its ZKV_END tells the entries
 * copied. A data chunk is only freed, where no block of it is in use. ZKV_BEGUN 9 b + 7 for b lines to copy, 3 for
 * none, or refused: 2, 1, 8, 15, 16, 13. */
zkv_report zkv_clean(zkv_record *record, const uint8_t *image, size_t bytes, const uint64_t *table, size_t words, size_t chunk);

/* One step of the begun call: see the table of reports above. Idle where nothing is begun, else refused with 1 alone,
 * where a lent length is unlike that at the opening (in a formatting: at its begin). */
zkv_report zkv_step(zkv_record *record, uint8_t *image, size_t bytes, uint64_t *table, size_t words);

/* Steps of the begun call until one is to be told: those that store a word, as many as come next, and one step more.
 * It answers the last step's report, which is as zkv_step's and never ZKV_STORE; each step before it stored a word,
 * already in the image. At most 513 steps, with large chunks 8,193; idle and refused as zkv_step. */
zkv_report zkv_run(zkv_record *record, uint8_t *image, size_t bytes, uint64_t *table, size_t words);

/* Looks a key up: 0, with the part of the image that holds its value (*length bytes from byte *start on; no copy, and
 * unaltered only until the last fence of a commit or cleaning is reported); or the refusal's number 2, 1, 8 (in a
 * formatting alone) or 11, with 0 in both. Staged items are unseen. An empty value is a part of length 0 and not a
 * refusal. */
uint64_t zkv_look_up(const zkv_record *record, const uint8_t *image, size_t bytes, const uint64_t *table, size_t words,
                     uint64_t key, uint64_t *start, uint64_t *length);

/* The same, with the value's version in *version, 0 on a refusal: what zkv_put_at and zkv_delete_at are told. With an
 * item of the key staged they want the version that this item gets, one above, and for each further item one more. Of
 * an absent key zkv_entries tells the version, if it is not 0. */
uint64_t zkv_look_up_version(const zkv_record *record, const uint8_t *image, size_t bytes, const uint64_t *table,
                             size_t words, uint64_t key, uint64_t *start, uint64_t *length, uint64_t *version);

/* Lists the present keys: 0, with the keys in rising order in `keys`, as far as its `room` words reach, and in *count
 * how many there are (ZKV_KEYS_MAX at most); the words behind them stay. Or the refusal's number 2, 1 or 8 (in a
 * formatting alone), with 0 in *count and no key. The keys are those that zkv_look_up finds. */
uint64_t zkv_list_keys(const zkv_record *record, const uint8_t *image, size_t bytes, const uint64_t *table, size_t words,
                       uint64_t *keys, size_t room, uint64_t *count);

/* What is listed of a present key: 0, with its version, its value's length, and 1 in *block where the value stands in
 * a block, 0 where it stands in the log; or the refusal's number 2, 1, 8 (in a formatting alone) or 11, with 0 in all
 * three. */
uint64_t zkv_list_key(const zkv_record *record, const uint8_t *image, size_t bytes, const uint64_t *table, size_t words,
                      uint64_t key, uint64_t *version, uint64_t *length, uint64_t *block);

/* The known keys of the open register, deleted ones that still have an entry included; 0 where none is open, and
 * while a formatting is unfinished. In another unfinished call they are those of the register that zkv_look_up shows. */
uint64_t zkv_keys(const zkv_record *record);

/* The chunks of an image whose directory word says free, as it stands, in an unfinished call too. */
uint64_t zkv_free_chunks(const uint8_t *image, size_t bytes);

/* The committed lines of all log chunks of an image. */
uint64_t zkv_lines_used(const uint8_t *image, size_t bytes);

/* What a chunk of the open register holds: by one pass over a log chunk, or for a data chunk over the whole log.
 * Refused: 2, 1, 8, and 16 where the image has no such chunk (chunk 0 has header and directory, and is none). */
zkv_chunk_row zkv_chunk(const zkv_record *record, const uint8_t *image, size_t bytes, const uint64_t *table,
                        size_t words, size_t chunk);

/* The first data chunk of the open register, from chunk `from` on, with no present value in it, which zkv_clean frees:
 * ZKV_CHOSEN with its number, or refused: 2, 1, 8, 16. A put that was abandoned may leave such a chunk: a host that
 * cleans and puts again asks from the chunk behind the last one on, so that it comes to an end. */
zkv_report zkv_empty_chunk(const zkv_record *record, const uint8_t *image, size_t bytes, const uint64_t *table,
                           size_t words, size_t from);

/* The calls below ask an image alone, open or not, and right or not. */

/* 1 with the station number that the header names, or 0 with 0 where it names none or is not right. */
uint64_t zkv_station(const uint8_t *image, size_t bytes, uint64_t *number);

/* The same of the centre number. */
uint64_t zkv_centre(const uint8_t *image, size_t bytes, uint64_t *number);

/* The entries of a key at or behind word `from` (0 for all), by chunk, then offset, into `words`: ZKV_ENTRY_WORDS for
 * each, as many whole entries as the `room` words hold; the words behind them stay. Answers how many there are, whether
 * they fit or not: where they are more than room / ZKV_ENTRY_WORDS, lend more, or ask again from the last one's
 * place + 1. None where an entry of the log is wrong. Each call reads the log twice, whatever the room. */
size_t zkv_entries(const uint8_t *image, size_t bytes, uint64_t key, size_t from, uint64_t *words, size_t room);

/* The first of these alone; `found` is 0 where there is none. It reads the log twice too. */
zkv_key_entry zkv_entry(const uint8_t *image, size_t bytes, uint64_t key, size_t from);

/* Why an opening refuses the image, and where; 0 where it does not, or only because the keys do not fit the table (7).
 * It has no key table: where no fault of 1 to 4 is found it passes over the log twice for each 1,300 keys or so, at
 * 60,000 keys 20 to 45 times an opening's time; longer where keys were chosen so that thousands are of one class. */
zkv_place zkv_fault(const uint8_t *image, size_t bytes);

/* Beside the proved calls, in plain C over them (host/library.c). Images in files: zitskvoze_file.h. */

/* The version of the library that is linked: the ZKV_VERSION of its header. A host that was built with another header
 * may lend a record of another size. */
const char *zkv_version(void);

/* The power of two of a chunk's bytes in an image, open or not, as an opening takes it from the header: 12 or 16; or 0
 * where an opening gets 1 or 2. So a chunk has 1 << zkv_power(image, bytes) bytes, and a value at most 8 fewer. */
uint64_t zkv_power(const uint8_t *image, size_t bytes);

/* Carries a begun call out to its end, by zkv_run, and answers the last report: ZKV_END or a refusal. `report` is what
 * the begin answered, or a step (ZKV_BEGUN, ZKV_STORE, ZKV_FLUSH, ZKV_FENCE); one of any other kind asks for nothing
 * and is answered at once, as it is (a refusal, ZKV_OPENED, ZKV_CHOSEN), so that every call may stand there:
 *     r = zkv_finish(LENT, zkv_put(LENT, key, value, length), flush, fence, context);
 * `flush` starts the write-back of the 64 bytes at `line`. `fence` waits until all that was started is durable and
 * answers 0, or another number where it could not. Then that ZKV_FENCE is answered: the call is unfinished, and nothing
 * may be acknowledged, though look-up may answer it already. zkv_finish with this report tries the fence again and goes
 * on; but where a sync of a file failed the pages may be lost (fsync(2)): open the file again and look at what is
 * there. Both are called between two steps, so that they may give the host's lock back and take it again; but see
 * LOOKING UP WHILE A CALL IS UNFINISHED for what a look-up shows between the report of a fence and the fence. */
zkv_report zkv_finish(zkv_record *record, uint8_t *image, size_t bytes, uint64_t *table, size_t words, zkv_report report,
                      void (*flush)(void *context, const uint8_t *line), int (*fence)(void *context), void *context);

/* Keeps the rule that a commit is begun only while a free chunk stands. To be called after each opening that answered
 * ZKV_OPENED, where the register is to be written, before anything is staged. It answers
 * - ZKV_IDLE: a free chunk stands, and nothing was done;
 * - ZKV_END: a chunk was freed, the one that zkv_choose named or else the first that can be;
 * - ZKV_FENCE: a fence failed, as in zkv_finish, which goes on with this report;
 * - refused with 13 or 16: no chunk can be freed, as the register is full, or was stuck before. It can be read, and
 *   a commit may still find space;
 * - refused with 2, 1, 8 or 15, as zkv_clean. */
zkv_report zkv_make_room(zkv_record *record, uint8_t *image, size_t bytes, uint64_t *table, size_t words,
                         void (*flush)(void *context, const uint8_t *line), int (*fence)(void *context), void *context);

/* The two functions for zkv_finish where the image is memory, persistent or ordinary: write-back by clwb, clflushopt or
 * clflush, whichever the processor has, and sfence. Their context is the address of an int that zkv_best_write_back
 * answered. */
int zkv_best_write_back(void);
void zkv_write_back(void *best, const uint8_t *line);
int zkv_store_fence(void *unused);

#ifdef __cplusplus
}
#endif

#endif
