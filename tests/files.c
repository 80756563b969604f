/* Block files, whole and spoilt, read by both programs.
 *
 *     files SEED FILES [FIRST]
 *
 * First, so many random files: round trips of random weeks of up to 24 lots, several damages at once, and random bytes. Then,
 * unless FIRST is given, files without chance: every change of one byte of a one-block file, with all 255 other values, as it
 * is (refused 16) and, of one bit, with the check made right again; every place of other files with a few values; every
 * length. FIRST is the number of the first random file. */
#include "both.h"

#include <inttypes.h>
#include <stdio.h>
#include <string.h>

static struct chance chance;
static struct week week;
static struct elurkantza_reading reading;
static struct buffers buffers;

/* Reads into buffers full of content that no file could give; a refused read leaves them so. */
static uint32_t read_file(const uint8_t *file, size_t len)
{
    static bool full;
    if (!full)
        buffers_fill(&buffers);
    reading = both_read(file, len, &buffers);
    full = reading.answer != 0;
    return reading.answer;
}

/* Writes the week at hand into a buffer of FILE_ROOM bytes and gives the file's length. */
static size_t write_week(uint8_t *file)
{
    size_t len = file_size_of(week.n);
    memset(file, 0xee, FILE_ROOM);
    if (both_write(&week, file, len) != 0)
        both_differ("a right week is not written");
    return len;
}

/* ---- Round trips ---- */

static bool same_and_then_zero(const uint16_t *got, size_t got_len, const uint16_t *words, size_t len)
{
    for (size_t i = 0; i < got_len; i++)
        if (got[i] != (i < len ? words[i] : 0))
            return false;
    return true;
}

/* What was written, read: the numbers and tables of the week and nothing beyond them. */
static void judge_reading(void)
{
    if (reading.n != week.n || reading.a != week.a || reading.b != week.b || reading.alternative != week.alternative ||
        reading.gap != week.gap || reading.helper != week.helper)
        both_differ("reading what was written gives other numbers");
    if (!same_and_then_zero(buffers.domain, MOST_LOTS, week.domain, week.n) ||
        !same_and_then_zero(buffers.loss, MOST_LOTS, week.loss, week.n) ||
        !same_and_then_zero(buffers.give, MOST_LOTS, week.give, week.n) ||
        !same_and_then_zero(buffers.ties, MOST_TIE_WORDS, week.ties, week.ties_len))
        both_differ("reading what was written gives other tables");
}

/* Takes over what was read as the week at hand. */
static void week_from_reading(void)
{
    uint32_t n = reading.n;
    week_plain(&week, n, reading.a, reading.b, 1);
    week.alternative = reading.alternative;
    week.gap = reading.gap;
    week.helper = reading.helper;
    memcpy(week.domain, buffers.domain, n * sizeof *week.domain);
    memcpy(week.loss, buffers.loss, n * sizeof *week.loss);
    memcpy(week.give, buffers.give, n * sizeof *week.give);
    memcpy(week.ties, buffers.ties, week.ties_len * sizeof *week.ties);
}

/* A file that is read, written again, gives back its bytes. */
static void judge_read_and_written(const uint8_t *file, size_t len)
{
    static uint8_t again[FILE_ROOM];
    week_from_reading();
    if (write_week(again) != len || memcmp(again, file, len) != 0)
        both_differ("writing what was read gives other bytes");
}

static void round_trip(uint8_t *file)
{
    size_t len = write_week(file);
    if (read_file(file, len) != 0)
        both_differ("what was written is not read");
    judge_reading();
    judge_read_and_written(file, len);
}

/* ---- Every place ---- */

/* Changes one byte, which the block's check must show, and then may make the check right again, which shows what lies behind
 * it; a file that is still a right one must then be its own round trip. */
static void change_byte(uint8_t *file, size_t len, size_t place, uint8_t change, bool stamped_too)
{
    uint8_t kept[BLOCK], *block = file + place / BLOCK * BLOCK;
    memcpy(kept, block, BLOCK);
    file[place] ^= change;
    if (read_file(file, len) != 16)
        both_differ("byte %zu changed by %u is not refused 16", place, change);
    if (stamped_too && place % BLOCK < CHECKED) {
        block_stamp(block);
        if (read_file(file, len) == 0)
            judge_read_and_written(file, len);
    }
    memcpy(block, kept, BLOCK);
}

/* With the check right again for changes of one bit. */
static void every_value_of_every_place(uint8_t *file, size_t len)
{
    for (size_t place = 0; place < len; place++)
        for (int change = 1; change < 256; change++)
            change_byte(file, len, place, (uint8_t)change, (change & (change - 1)) == 0);
}

static void every_place(uint8_t *file, size_t len)
{
    for (size_t place = 0; place < len; place++) {
        change_byte(file, len, place, 1, one_in(&chance, 4));
        change_byte(file, len, place, (uint8_t)(1 + below(&chance, 255)), false);
    }
}

/* ---- Every length ---- */

/* Cuts the file at every byte and lengthens it by every number of bytes, up to more than any file has; what lies beyond the
 * file is 0. Nothing but the whole file may be read. */
static void every_length(const uint8_t *whole, size_t len, size_t step)
{
    static uint8_t file[FILE_ROOM];
    memset(file, 0, sizeof file);
    memcpy(file, whole, len);
    for (size_t cut = 0; cut < FILE_ROOM; cut += step)
        if ((read_file(file, cut) == 0) != (cut == len))
            both_differ("a file of %zu bytes cut or lengthened to %zu is not judged so", len, cut);
}

/* The same by whole blocks that are right by themselves, each with its number and check. */
static void every_number_of_blocks(const uint8_t *whole, size_t len)
{
    static uint8_t file[FILE_ROOM];
    for (size_t blocks = 0; blocks <= FILE_ROOM / BLOCK; blocks++) {
        memset(file, 0, sizeof file);
        memcpy(file, whole, len);
        for (size_t i = len / BLOCK; i < blocks; i++) {
            file[i * BLOCK] = (uint8_t)i;
            block_stamp(file + i * BLOCK);
        }
        if (read_file(file, blocks * BLOCK) != (blocks * BLOCK == len ? 0 : 15))
            both_differ("a file of %zu blocks made %zu is not refused 15", len / BLOCK, blocks);
    }
}

/* The smallest weeks that fill one block and two, one in the middle, and the largest of all. */
static void files_without_chance(void)
{
    static const uint32_t lots[] = {1, 3, 5, 6, 12, 24};
    static uint8_t file[FILE_ROOM];
    uint8_t order[ROOM];
    for (size_t i = 0; i < sizeof lots / sizeof *lots; i++) {
        chance = chance_of(0, lots[i]);
        week_around(&chance, &week, lots[i], order);
        round_trip(file);
        size_t len = file_size_of(lots[i]);
        if (lots[i] == 3)
            every_value_of_every_place(file, len);
        else
            every_place(file, len);
        every_length(file, len, lots[i] == 3 ? 1 : 37);
        every_number_of_blocks(file, len);
    }
}

/* ---- Random files ---- */

/* Random bytes; some in whole blocks, some of these with right numbers and checks, some with a right n as well. */
static void random_bytes(uint8_t *file)
{
    size_t blocks = below(&chance, 4) == 0 ? below(&chance, 20) : 1 + below(&chance, 2), len = blocks * BLOCK;
    uint32_t right = below(&chance, 4);
    fill(&chance, file, len);
    if (right == 0 && len > 0)
        len -= below(&chance, BLOCK);
    for (size_t i = 0; right >= 2 && i < blocks; i++) {
        uint8_t numbers[6] = {(uint8_t)(1 + below(&chance, 6)), (uint8_t)below(&chance, 3), (uint8_t)below(&chance, 4)};
        memset(file + i * BLOCK, 0, 4);
        file[i * BLOCK] = (uint8_t)i;
        if (right == 3 && i == 0)
            memcpy(file + 4, numbers, sizeof numbers);
        if (right == 3 && one_in(&chance, 2)) /* and right filling */
            for (size_t byte = content_of(numbers[0]); byte < blocks * CONTENT; byte++)
                file[file_place(byte)] = 0;
        block_stamp(file + i * BLOCK);
    }
    read_file(file, len);
}

static void random_file(void)
{
    static uint8_t file[FILE_ROOM];
    uint8_t order[ROOM];
    uint32_t n = one_in(&chance, 8) ? 1 + below(&chance, MOST_LOTS) : 1 + below(&chance, 7);
    week_around(&chance, &week, n, order);
    round_trip(file);
    size_t len = file_size_of(n);
    for (int damages = 0; damages < 2; damages++) {
        file_damage(&chance, file, &len, n);
        if (read_file(file, len) == 0)
            judge_read_and_written(file, len);
    }
    random_bytes(file);
}

static bool enough_of_all(void)
{
    static const uint32_t refusals[] = {1, 3, 4, 15, 16, 17, 18};
    bool enough = true;
    for (size_t i = 0; i < sizeof refusals / sizeof *refusals; i++) {
        char what[32];
        snprintf(what, sizeof what, "read %" PRIu32, refusals[i]);
        enough = often_enough(what, both_count(READ, refusals[i]), 50) && enough;
    }
    return enough;
}

int main(int count, char **arguments)
{
    const struct run run = both_run(count, arguments, "files SEED FILES [FIRST]");
    for (uint64_t index = run.first; index < run.first + run.count; index++) {
        both_at("files", "file", run.seed, index);
        chance = chance_of(run.seed, index);
        random_file();
    }
    both_at(NULL, NULL, 0, 0);
    if (!run.repeats)
        files_without_chance();
    both_print_counts();
    printf("files: seed %" PRIu64 ", %" PRIu64 " random files, %" PRIu64 " calls alike\n", run.seed, run.count, both_calls());
    return run.repeats || enough_of_all() ? 0 : 1;
}
