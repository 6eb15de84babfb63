/* Plays a script of tests/model/PROTOCOL.md on the library and prints what each call answered, so that the output can be
 * compared with the model's. It holds each refusal to its word: image, table and record before and after are compared
 * (a refused opening: the table is all zero and a step then says idle), and `changed` follows the answer if something
 * changed. So it does where a choosing, a look-up or a list changed something, whatever it answered.
 *
 * With --twin it runs twins along: wherever a register is open with nothing staged or unfinished, a copy of the image
 * is opened with a record and a table of garbage, and every later call is made on it too. Its answers and its image are
 * compared with the station's, call by call, and so are the known keys; at some calls also what is asked of a chunk,
 * the list of the keys, and a run. `twin` follows an answer that is unlike, and the exit status is then 1. At the end
 * it writes to standard error how many twins were started and calls compared, and how many look-ups and lists were
 * answered while a call was unfinished. */
#include <inttypes.h>
#include <stdbool.h>
#include <stdio.h>
#include <stdlib.h>
#include <string.h>

#include "zitskvoze.h"

enum { IMAGE_MAX = 524288, TABLE_MAX = 8192, VALUE_ROOM = 65536, ARGUMENTS = 4, TWINS = 4, SOME = 16, LONG = 65536 };

/* What is lent to every call, and a copy of it from before the call. */
struct lent {
    _Alignas(64) uint8_t image[IMAGE_MAX];
    uint64_t table[TABLE_MAX];
    zkv_record record;
};

static struct lent now, before;
static size_t bytes, words;
static uint8_t value[VALUE_ROOM];
static bool cleaning;              /* the call begun last is a cleaning, and has not ended */
static bool unfinished;            /* the call begun last has not ended */
static uint64_t reprints;          /* look-ups and lists answered in unfinished calls */

/* A call with its arguments, to be made on the station and on its twins. */
enum call {
    FORMAT, OPEN, PUT, PUT_AT, DELETE, DELETE_AT, COMMIT, ABANDON, CHOOSE, CLEAN, STEP, RUN, LOOK, LOOK_VERSION, LIST
};

struct asked {
    enum call call;
    uint64_t first, second;        /* key, value's length; chunk; station, centre */
    bool given[2];                 /* station, centre */
    uint64_t power;                /* of the chunks that a formatting makes */
    uint64_t version;              /* that a put or a delete is for */
};

static uint64_t looked;            /* the version that the look-up made last handed out */

/* The list of the present keys: the refusal's number or 0, how many they are, and a sum over what is listed of each. */
static zkv_report listed(const struct lent *l)
{
    static uint64_t keys[TABLE_MAX / 2];    /* as many as altered memory may make of a table */
    zkv_report found = {0, 1, 0};
    const zkv_record *r = &l->record;
    found.kind = zkv_list_keys(r, l->image, bytes, l->table, words, keys, TABLE_MAX / 2, &found.first);
    for (uint64_t i = 0; i < found.first && found.kind == 0; i++) {
        uint64_t version, length, block;
        found.kind = zkv_list_key(r, l->image, bytes, l->table, words, keys[i], &version, &length, &block);
        found.second = 3 * found.second + keys[i];
        found.second = 3 * found.second + version;
        found.second = 3 * found.second + length;
        found.second = 3 * found.second + block;
    }
    return found;
}

/* What it answers; of a look-up the number, and where the part is. */
static zkv_report made(struct lent *l, struct asked a)
{
    zkv_record *r = &l->record;
    zkv_report found = {0, 1, 1};
    switch (a.call) {
    case FORMAT:
        return zkv_format(r, l->image, bytes, l->table, words, a.power, a.given[0], a.first, a.given[1], a.second);
    case OPEN:
        return zkv_open(r, l->image, bytes, l->table, words);
    case PUT:
        return zkv_put(r, l->image, bytes, l->table, words, a.first, value, a.second);
    case PUT_AT:
        return zkv_put_at(r, l->image, bytes, l->table, words, a.first, value, a.second, a.version);
    case DELETE:
        return zkv_delete(r, l->image, bytes, l->table, words, a.first);
    case DELETE_AT:
        return zkv_delete_at(r, l->image, bytes, l->table, words, a.first, a.version);
    case COMMIT:
        return zkv_commit(r, l->image, bytes, l->table, words);
    case ABANDON:
        return zkv_abandon(r, l->image, bytes, l->table, words);
    case CHOOSE:
        return zkv_choose(r, l->image, bytes, l->table, words);
    case CLEAN:
        return zkv_clean(r, l->image, bytes, l->table, words, a.first);
    case STEP:
        return zkv_step(r, l->image, bytes, l->table, words);
    case RUN:
        return zkv_run(r, l->image, bytes, l->table, words);
    case LIST:
        return listed(l);
    case LOOK:
        found.kind = zkv_look_up(r, l->image, bytes, l->table, words, a.first, &found.first, &found.second);
        return found;
    case LOOK_VERSION:
        looked = 1;
        found.kind = zkv_look_up_version(r, l->image, bytes, l->table, words, a.first, &found.first, &found.second, &looked);
        return found;
    }
    abort();
}

/* THE TWINS. Of two that start one after the other the first gives way to the next, of four the second, and so on: some
 * are young, some old. Where a register is open at rest with nothing staged, an abandoning says 14. */
static struct lent twin[TWINS], tried;
static bool running[TWINS], with_twins, unlike, differs;
static bool altered;            /* memory is not as the calls left it: no twin starts before the next opening */
static uint64_t started, compared;

static void open_twin(void)
{
    static uint64_t seed = 1;
    size_t place = 0;
    started++;
    while (place < TWINS - 1 && (started >> place) % 2 == 0) {
        place++;
    }
    struct lent *t = &twin[place];
    memcpy(t->image, now.image, bytes);
    for (size_t i = 0; i < words; i++) {
        t->table[i] = seed = 6364136223846793005u * seed + 1442695040888963407u;
    }
    for (size_t i = 0; i < sizeof t->record / 8; i++) {
        t->record.word[i] = seed = 6364136223846793005u * seed + 1442695040888963407u;
    }
    running[place] = true;
    unlike = unlike || zkv_open(&t->record, t->image, bytes, t->table, words).kind != ZKV_OPENED;
#ifdef WRONG
    /* the record's hint: no log chunk below chunk 3 has space for a line */
    t->record.word[12] = 3;
    t->record.word[13] = 1;
#endif
}

static bool same(zkv_report r, zkv_report q)
{
    return q.kind == r.kind && q.first == r.first && q.second == r.second;
}

/* Of an image with large chunks a step that stores or flushes is held to the one word that it may change, as it may be
 * one of thousands; the whole image is compared at the next call or step that tells something else. */
static bool one_of_many(struct asked a, zkv_report r)
{
    return bytes > LONG && a.call == STEP && ((r.kind == ZKV_STORE && r.first < bytes / 8) || r.kind == ZKV_FLUSH);
}

static bool same_word(const struct lent *l, const struct lent *t, zkv_report r)
{
    return r.kind != ZKV_STORE || memcmp(l->image + 8 * r.first, t->image + 8 * r.first, 8) == 0;
}

static bool same_images(const struct lent *l, const struct lent *t)
{
    return memcmp(l->image, t->image, bytes) == 0;
}

static void copy(struct lent *to, const struct lent *from)
{
    memcpy(to->image, from->image, bytes);
    memcpy(to->table, from->table, 8 * words);
    to->record = from->record;
}

/* The calls that are no calls of a script, in every state: a chunk's row, the empty chunk from it on, the list of the
 * keys, and on copies a run. */
static bool shown_alike(const struct lent *l, const struct lent *t)
{
    static uint64_t keys[2][TABLE_MAX / 2];
    static struct lent ran[2];
    uint64_t count[2], number[2];
    size_t size = bytes < ZKV_CHUNKS_MIN * ZKV_LARGE_CHUNK_BYTES ? ZKV_CHUNK_BYTES : ZKV_LARGE_CHUNK_BYTES;
    size_t chunk = compared / SOME % (bytes / size + 1);
    const struct lent *each[2] = {l, t};
    zkv_chunk_row row[2];
    zkv_report empty[2], end[2];
    for (size_t i = 0; i < 2; i++) {
        const zkv_record *r = &each[i]->record;
        const uint8_t *image = each[i]->image;
        const uint64_t *table = each[i]->table;
        row[i] = zkv_chunk(r, image, bytes, table, words, chunk);
        empty[i] = zkv_empty_chunk(r, image, bytes, table, words, chunk);
        number[i] = zkv_list_keys(r, image, bytes, table, words, keys[i], TABLE_MAX / 2, &count[i]);
        copy(&ran[i], each[i]);
        end[i] = zkv_run(&ran[i].record, ran[i].image, bytes, ran[i].table, words);
    }
    return memcmp(&row[0], &row[1], sizeof row[0]) == 0 && same(empty[0], empty[1]) && number[0] == number[1] &&
           count[0] == count[1] && memcmp(keys[0], keys[1], sizeof keys[0]) == 0 && same(end[0], end[1]) &&
           same_images(&ran[0], &ran[1]) && zkv_keys(&ran[0].record) == zkv_keys(&ran[1].record);
}

static void follow(struct asked a, zkv_report r)
{
    for (size_t i = 0; i < TWINS; i++) {
        if (!running[i]) {
            continue;
        }
        uint64_t version = looked;
        zkv_report q = made(&twin[i], a);
        compared++;
        bool alike = one_of_many(a, r) ? same_word(&now, &twin[i], r) : same_images(&now, &twin[i]);
        unlike = unlike || !same(r, q) || looked != version || !alike || zkv_keys(&now.record) != zkv_keys(&twin[i].record) ||
                 (compared % (bytes > LONG ? SOME * SOME : SOME) == 0 && !shown_alike(&now, &twin[i]));
    }
    memcpy(tried.table, now.table, 8 * words);
    tried.record = now.record;
    zkv_report rests = zkv_abandon(&tried.record, now.image, bytes, tried.table, words);
    if (!altered && rests.kind == ZKV_REFUSED && rests.first == 14) {
        open_twin();
    }
}

static struct asked asked;         /* the call made last, and what it answered */
static zkv_report answered;

/* The copy from before the last call is there already. */
static void remember(void)
{
    if (!one_of_many(asked, answered)) {
        copy(&before, &now);
        return;
    }
    if (answered.kind == ZKV_STORE) {
        memcpy(before.image + 8 * answered.first, now.image + 8 * answered.first, 8);
    }
    before.record = now.record;
}

/* What is lent was changed by no call: the twins end, and the next call needs a whole copy. */
static void lent_anew(void)
{
    memset(running, 0, sizeof running);
    asked.call = OPEN;
}

static bool image_same(void)
{
    return memcmp(before.image, now.image, bytes) == 0;
}

static bool all_same(void)
{
    return image_same() && memcmp(before.table, now.table, 8 * words) == 0 &&
           memcmp(&before.record, &now.record, sizeof now.record) == 0;
}

/* What a refused opening leaves: the image as it was, a table of zeros, and nothing begun (asked of a copy). */
static bool closed(void)
{
    if (!image_same()) {
        return false;
    }
    for (size_t i = 0; i < words; i++) {
        if (now.table[i] != 0) {
            return false;
        }
    }
    copy(&before, &now);
    return zkv_step(&before.record, before.image, bytes, before.table, words).kind == ZKV_IDLE;
}

static void show(zkv_report r)
{
    switch (r.kind) {
    case ZKV_REFUSED:
        printf("refused %" PRIu64 "\n", r.first);
        break;
    case ZKV_BEGUN:
        printf("begun %" PRIu64 "\n", r.first);
        break;
    case ZKV_STORE:
        printf("store %" PRIu64 " %" PRIu64 "\n", r.first, r.second);
        break;
    case ZKV_FLUSH:
        printf("flush %" PRIu64 "\n", r.first);
        break;
    case ZKV_FENCE:
        puts("fence");
        break;
    case ZKV_END:
        if (cleaning) {
            printf("end %" PRIu64 "\n", r.first);
        } else {
            puts(r.first == 0 ? "end" : "end with a count, of no cleaning");
        }
        cleaning = false;
        break;
    case ZKV_CHOSEN:
        printf("chunk %" PRIu64 "\n", r.first);
        break;
    case ZKV_IDLE:
        puts("idle");
        break;
    case ZKV_OPENED:
        puts("opened");
        break;
    case ZKV_ABANDONED:
        puts("abandoned");
        break;
    default:
        printf("kind %" PRIu64 "\n", r.kind);
    }
}

/* Prints whether a twin was unlike since it was last told. */
static void tell_twins(void)
{
    if (unlike) {
        puts("twin");
    }
    differs = differs || unlike;
    unlike = false;
}

/* Prints an answer, and whether a refusal or a choosing changed something. */
static void answer(zkv_report r)
{
    show(r);
    if ((r.kind == ZKV_REFUSED || r.kind == ZKV_CHOSEN) && !all_same()) {
        puts("changed");
    }
    tell_twins();
}

/* Makes a call on the station and on its twins. */
static zkv_report ask(struct asked a)
{
    remember();
    zkv_report r = made(&now, a);
    bool reading = a.call == LOOK || a.call == LOOK_VERSION || a.call == LIST;
    altered = altered && !(a.call == OPEN && r.kind == ZKV_OPENED);
    if (reading) {
        reprints += unfinished && r.kind == 0;
    } else if (a.call == OPEN || r.kind == ZKV_END) {
        unfinished = false;
    } else {
        unfinished = unfinished || r.kind == ZKV_BEGUN;
    }
    if (with_twins) {
        follow(a, r);
    }
    asked = a;
    answered = r;
    return r;
}

static zkv_report step(void)
{
    return ask((struct asked){.call = STEP});
}

/* Steps until one reports no action, and at most so many. */
static void run(uint64_t most)
{
    uint64_t count = 0, sum = 0;
    bool more = true;
    zkv_report r;
    do {
        r = step();
        count++;
        switch (r.kind) {
        case ZKV_STORE:
            sum = 3 * sum + 5 * r.first + r.second + 1;
            break;
        case ZKV_FLUSH:
            sum = 3 * sum + 7 * r.first + 2;
            break;
        case ZKV_FENCE:
            sum = 3 * sum + 3;
            break;
        case ZKV_END:
            sum = 3 * sum + 4 + r.first;
            more = false;
            break;
        default:
            more = false;
        }
    } while (more && count < most);
    printf("ran %" PRIu64 " %" PRIu64 "\n", count, sum);
    answer(r);
}

/* Prints whether a look-up or a list changed something, or was refused and handed something out. */
static void tell_reading(bool handed_out)
{
    if (!all_same() || handed_out) {
        puts("changed");
    }
    tell_twins();
}

static void look(uint64_t key, bool with_version)
{
    zkv_report r = ask((struct asked){.call = with_version ? LOOK_VERSION : LOOK, .first = key});
    uint64_t number = r.kind, start = r.first, length = r.second, sum = 0;
    if (number != 0) {
        printf("refused %" PRIu64 "\n", number);
        tell_reading(start != 0 || length != 0 || (with_version && looked != 0));
        return;
    }
    if (start > bytes || length > bytes - start) {
        puts("value outside the image");
        return;
    }
    for (uint64_t i = 0; i < length; i++) {
        sum += (i + 1) * now.image[start + i];
    }
    printf("value %" PRIu64 " %" PRIu64 " %" PRIu64, start, length, sum);
    if (with_version) {
        printf(" %" PRIu64, looked);
    }
    puts("");
    tell_reading(false);
}

static void list(void)
{
    zkv_report r = ask((struct asked){.call = LIST});
    if (r.kind != 0) {
        printf("refused %" PRIu64 "\n", r.kind);
        tell_reading(r.first != 0);
        return;
    }
    printf("list %" PRIu64 " %" PRIu64 "\n", r.first, r.second);
    tell_reading(false);
}

static void sum_words(void)
{
    uint64_t sum = 0;
    for (size_t w = 0; w < bytes / 8; w++) {
        uint64_t word;
        memcpy(&word, now.image + 8 * w, 8);
        sum = 3 * sum + word;
    }
    printf("sum %" PRIu64 "\n", sum);
}

/* A decimal number below 2^64. */
static bool number_of(const char *s, uint64_t *n)
{
    uint64_t x = 0;
    if (*s == 0) {
        return false;
    }
    for (; *s; s++) {
        if (*s < '0' || *s > '9') {
            return false;
        }
        uint64_t digit = (uint64_t)(*s - '0');
        if (x > (UINT64_MAX - digit) / 10) {
            return false;
        }
        x = 10 * x + digit;
    }
    *n = x;
    return true;
}

/* The value of a put: so many bytes, counted up from the first. */
static void count_up(uint64_t length, uint64_t first)
{
    for (uint64_t i = 0; i < length; i++) {
        value[i] = (uint8_t)(first + i);
    }
}

/* Plays one line. Answers whether it is a command. */
static bool play(char *line)
{
    char *word[ARGUMENTS + 1];
    uint64_t n[ARGUMENTS] = {0};
    bool absent[ARGUMENTS] = {false};
    size_t count = 0;
    for (char *s = line;;) {
        if (count == ARGUMENTS + 1) {
            return false;
        }
        word[count++] = s;
        s = strchr(s, ' ');
        if (s == NULL) {
            break;
        }
        *s++ = 0;
    }
    const char *command = word[0];
    size_t given = count - 1;
    bool dash = false;
    for (size_t i = 0; i < given; i++) {
        absent[i] = strcmp(word[i + 1], "-") == 0;
        dash = dash || absent[i];
        if (!absent[i] && !number_of(word[i + 1], &n[i])) {
            return false;
        }
    }
#define COMMAND(name, arguments) (strcmp(command, name) == 0 && given == (arguments))
    if (COMMAND("format", 2) || COMMAND("format", 3)) {
        uint64_t power = given == 3 ? n[2] : ZKV_POWER_SMALL;
        answer(ask((struct asked){.call = FORMAT, .first = n[0], .second = n[1], .given = {!absent[0], !absent[1]}, .power = power}));
        return true;
    }
    if (dash) {
        return false;
    }
    if (COMMAND("image", 1) && n[0] <= IMAGE_MAX) {
        bytes = n[0];
        memset(now.image, 0, sizeof now.image);
        lent_anew();
        printf("image %zu\n", bytes);
    } else if (COMMAND("table", 1) && n[0] <= TABLE_MAX) {
        words = n[0];
        memset(now.table, 0, sizeof now.table);
        lent_anew();
        printf("table %zu\n", words);
    } else if (COMMAND("record", 0)) {
        memset(&now.record, 0, sizeof now.record);
        cleaning = false;
        unfinished = false;
        lent_anew();
        puts("record");
    } else if (COMMAND("poke", 2) && n[0] < bytes / 8) {
        memcpy(now.image + 8 * n[0], &n[1], 8);
        altered = true;
        lent_anew();
        puts("poke");
    } else if (COMMAND("tpoke", 2) && n[0] < words) {
        now.table[n[0]] = n[1];
        altered = true;
        lent_anew();
        puts("tpoke");
    } else if (COMMAND("open", 0)) {
        zkv_report r = ask((struct asked){.call = OPEN});
        cleaning = false;
        show(r);
        if (r.kind == ZKV_REFUSED && !closed()) {
            puts("changed");
        }
        tell_twins();
    } else if (COMMAND("put", 3) && n[1] <= VALUE_ROOM) {
        count_up(n[1], n[2]);
        answer(ask((struct asked){.call = PUT, .first = n[0], .second = n[1]}));
    } else if (COMMAND("putat", 4) && n[2] <= VALUE_ROOM) {
        count_up(n[2], n[3]);
        answer(ask((struct asked){.call = PUT_AT, .first = n[0], .second = n[2], .version = n[1]}));
    } else if (COMMAND("delete", 1)) {
        answer(ask((struct asked){.call = DELETE, .first = n[0]}));
    } else if (COMMAND("deleteat", 2)) {
        answer(ask((struct asked){.call = DELETE_AT, .first = n[0], .version = n[1]}));
    } else if (COMMAND("commit", 0)) {
        answer(ask((struct asked){.call = COMMIT}));
    } else if (COMMAND("abandon", 0)) {
        answer(ask((struct asked){.call = ABANDON}));
    } else if (COMMAND("choose", 0)) {
        answer(ask((struct asked){.call = CHOOSE}));
    } else if (COMMAND("clean", 1)) {
        zkv_report r = ask((struct asked){.call = CLEAN, .first = n[0]});
        cleaning = cleaning || r.kind == ZKV_BEGUN;
        answer(r);
    } else if (COMMAND("look", 1)) {
        look(n[0], false);
    } else if (COMMAND("lookv", 1)) {
        look(n[0], true);
    } else if (COMMAND("list", 0)) {
        list();
    } else if (COMMAND("step", 0)) {
        answer(step());
    } else if (COMMAND("stores", 0)) {
        answer(ask((struct asked){.call = RUN}));
    } else if (COMMAND("run", 0)) {
        run(UINT64_MAX);
    } else if (COMMAND("steps", 1) && n[0] >= 1) {
        run(n[0]);
    } else if (COMMAND("sum", 0)) {
        sum_words();
    } else {
        return false;
    }
    return true;
}

int main(int argc, char **argv)
{
    static char line[256];
    if (argc > 2 || (argc == 2 && strcmp(argv[1], "--twin") != 0)) {
        fputs("replay [--twin] < SCRIPT\n", stderr);
        return 2;
    }
    with_twins = argc == 2;
    while (fgets(line, sizeof line, stdin) != NULL) {
        size_t length = strcspn(line, "\n");
        bool whole = line[length] == '\n' || feof(stdin);
        line[length] = 0;
        if (!whole) {
            int c;
            do {
                c = getchar();
            } while (c != '\n' && c != EOF);
        }
        if (!whole || !play(line)) {
            puts("bad");
        }
    }
    if (with_twins) {
        fprintf(stderr, "%" PRIu64 " %" PRIu64 " %" PRIu64 "\n", started, compared, reprints);
    }
    return differs;
}
