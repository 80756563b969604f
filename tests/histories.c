/* Random histories: up to 8 desks copy from one opened sheet and save to it, in up to 60 calls, well-formed and ill-formed. The tables are
 * the same at every call, the six numbers are each call's own; with another n a call is refused and changes nothing.
 *
 *     histories SEED HISTORIES [FIRST]
 *
 * Every call is compared with the second program's. Then the four sentences of the mill's third demand are judged on what the
 * library did, from a list of what happened and not from the sheet's marks:
 *
 *   1. the order keeps every pair rule, at every moment;
 *   2. a well-formed save is stale exactly if a lot it moves, or one tied to it, was moved since its copy;
 *   3. the end is the opened order with the accepted saves' moves put in, and their number; and it is what they give one by one, each with
 *      its own numbers and from a fresh copy, where each is accepted again;
 *   4. two neighbouring accepted saves, the later from a copy older than the earlier save, give the same order and save
 *      number either way round, both accepted with the copy numbers they had.
 *
 * A run without FIRST ends with one long history, up to the last save that a sheet can take. */
#include "both.h"

#include <inttypes.h>
#include <stdio.h>
#include <string.h>

enum { DESKS = 8, CALLS = 60, MOVES_ROOM = 2 * ROOM };

static struct chance chance;
static struct week week; /* with the numbers of the call at hand */
static struct elurkantza_sheet sheet;
static uint8_t opened_with[ROOM];

/* What a desk has: its copy's number, and how many saves had been accepted when it was made. */
static struct desk {
    uint32_t copy;
    size_t accepted_then;
} desks[DESKS];

struct numbers {
    uint32_t n, a, b, alternative, gap, helper;
};

/* The accepted saves, first to last, each with its numbers and the sheet as it was before. */
static struct accepted {
    struct numbers numbers;
    uint32_t copy;
    size_t accepted_then;
    uint8_t moves[MOVES_ROOM];
    size_t len;
    struct elurkantza_sheet before;
} accepted[CALLS];
static size_t accepted_count;

static uint64_t stale_saves, fresh_saves, replayed, turned_round, foreign_calls;

/* ---- The numbers of a call ---- */

static struct numbers numbers_at_hand(void)
{
    return (struct numbers){week.n, week.a, week.b, week.alternative, week.gap, week.helper};
}

static void call_with(struct numbers numbers)
{
    week.n = numbers.n, week.a = numbers.a, week.b = numbers.b;
    week.alternative = numbers.alternative, week.gap = numbers.gap, week.helper = numbers.helper;
}

/* Other numbers within their limits, for the next call; n stays. */
static void other_numbers(void)
{
    struct numbers numbers = {week.n, below(&chance, 3), below(&chance, 4), below(&chance, 2), 0, below(&chance, 2)};
    if (numbers.alternative == 1)
        numbers.gap = below(&chance, 16);
    call_with(numbers);
}

/* ---- The sentences ---- */

static void judge_order(void)
{
    if (sheet.n != week.n || !week_keeps(&week, sheet.order))
        both_differ("the sheet's order breaks the rules (sentence 1)");
}

static bool touches(uint8_t moved, uint8_t lot)
{
    return moved == lot || week_tied(&week, moved, lot);
}

/* Was a lot that these moves name, or one tied to it, moved by a save accepted after the first `accepted_then`? */
static bool moved_since(size_t accepted_then, const uint8_t *moves, size_t len)
{
    for (size_t i = accepted_then; i < accepted_count; i++)
        for (size_t j = 0; j < accepted[i].len; j += 2)
            for (size_t k = 0; k < len; k += 2)
                if (touches(moves[k], accepted[i].moves[j]))
                    return true;
    return false;
}

static void judge_stale(uint32_t number, size_t accepted_then, const uint8_t *moves, size_t len)
{
    if (number != 0 && number < 12)
        return; /* not well-formed */
    bool moved = moved_since(accepted_then, moves, len);
    if (moved != (number == 12))
        both_differ("answered %" PRIu32 " although lots were%s moved since the copy (sentence 2)", number,
                    moved ? "" : " not");
    *(moved ? &stale_saves : &fresh_saves) += 1;
}

static uint32_t fresh_copy(struct elurkantza_sheet of)
{
    struct elurkantza_copied copied = both_copy(&week, of);
    if (copied.answer != 0)
        both_differ("a copy of the sheet is refused");
    return copied.copy;
}

/* The accepted saves' moves, put into the opened order here and not by the library, must give the end too; otherwise a sheet
 * that only counts its saves would end as it does when they are played again. */
static void judge_moves(void)
{
    uint8_t order[ROOM];
    memcpy(order, opened_with, sizeof order);
    for (size_t i = 0; i < accepted_count; i++)
        for (size_t j = 0; j < accepted[i].len; j += 2)
            order[accepted[i].moves[j]] = accepted[i].moves[j + 1];
    if (memcmp(order, sheet.order, week.n) != 0 || sheet.saves != accepted_count)
        both_differ("the end is not what the accepted moves make it (sentence 3)");
}

static void judge_end(void)
{
    judge_moves();
    struct elurkantza_opened opened = both_open(&week, opened_with, week.n);
    struct elurkantza_sheet again = opened.sheet;
    if (opened.answer != 0)
        both_differ("the sheet does not open a second time (sentence 3)");
    for (size_t i = 0; i < accepted_count; i++) {
        call_with(accepted[i].numbers);
        if (both_save(&week, &again, fresh_copy(again), accepted[i].moves, accepted[i].len) != 0)
            both_differ("accepted save %zu is refused from a fresh copy (sentence 3)", i);
    }
    if (memcmp(again.order, sheet.order, week.n) != 0 || again.saves != sheet.saves)
        both_differ("the accepted saves one by one give another end (sentence 3)");
    replayed += accepted_count;
}

/* Accepted save i and the one after it, the other way round. */
static void judge_turned_round(size_t i)
{
    const struct accepted *earlier = &accepted[i], *later = &accepted[i + 1];
    const struct elurkantza_sheet *end = i + 2 < accepted_count ? &accepted[i + 2].before : &sheet;
    struct elurkantza_sheet turned = earlier->before;
    if (later->accepted_then > i)
        return; /* its copy is not older than the earlier save */
    call_with(later->numbers);
    if (both_save(&week, &turned, later->copy, later->moves, later->len) != 0)
        both_differ("accepted save %zu is refused before its neighbour (sentence 4)", i + 1);
    call_with(earlier->numbers);
    if (both_save(&week, &turned, earlier->copy, earlier->moves, earlier->len) != 0)
        both_differ("accepted save %zu is refused behind its neighbour (sentence 4)", i);
    if (memcmp(turned.order, end->order, week.n) != 0 || turned.saves != end->saves)
        both_differ("accepted saves %zu and %zu turned round give another end (sentence 4)", i, i + 1);
    turned_round++;
}

/* ---- A history ---- */

static void desk_copies(struct desk *desk)
{
    desk->copy = fresh_copy(sheet);
    desk->accepted_then = accepted_count;
}

/* Moves of one to three lots, mostly such that the order still keeps the rules. */
static size_t some_moves(uint8_t *moves)
{
    size_t count = 0;
    for (int tries = 0; tries < 10; tries++) {
        uint8_t order[MOST_LOTS], most = (uint8_t)(1 + below(&chance, 3));
        memcpy(order, sheet.order, MOST_LOTS);
        count = 0;
        for (uint32_t p = below(&chance, week.n); p < week.n && count < most; p += 1 + below(&chance, week.n)) {
            order[p] = some_slot(&chance, week.domain[p]);
            moves[2 * count] = (uint8_t)p;
            moves[2 * count++ + 1] = order[p];
        }
        if (memcmp(order, sheet.order, MOST_LOTS) != 0 && (week_keeps(&week, order) || one_in(&chance, 20)))
            break;
    }
    return 2 * count;
}

static size_t ill_formed(uint8_t *moves, size_t len)
{
    switch (below(&chance, 5)) {
    case 0: return 0;
    case 1: return len - 1;
    case 2: moves[0] = (uint8_t)(week.n + below(&chance, 8)); return len;
    case 3: moves[1] = (uint8_t)below(&chance, 256); return len;
    default: memcpy(moves + len, moves, 2); return len + 2;
    }
}

static void desk_saves(struct desk *desk)
{
    struct accepted save = {numbers_at_hand(), desk->copy, desk->accepted_then, {0}, 0, sheet};
    save.len = some_moves(save.moves);
    if (one_in(&chance, 10))
        save.len = ill_formed(save.moves, save.len);
    if (one_in(&chance, 20))
        save.copy = sheet.saves + 1 + below(&chance, 3);
    uint32_t number = both_save(&week, &sheet, save.copy, save.moves, save.len);
    judge_stale(number, save.accepted_then, save.moves, save.len);
    if (number != 0)
        return;
    accepted[accepted_count++] = save;
    if (one_in(&chance, 3))
        desk_copies(desk);
}

/* A call with another n, or with a number outside its limits: refused for that, and the sheet is as it was. */
static void foreign_call(const struct desk *desk)
{
    const struct elurkantza_sheet before = sheet;
    const struct numbers right = numbers_at_hand();
    struct numbers wrong = right;
    uint8_t moves[MOVES_ROOM];
    size_t len = some_moves(moves);
    if (one_in(&chance, 3))
        wrong.a = 3 + below(&chance, 3);
    else
        wrong.n = (right.n + 1 + below(&chance, MOST_LOTS)) % (MOST_LOTS + 2);
    if (wrong.n == right.n && wrong.a == right.a)
        wrong.n = MOST_LOTS + 1;
    call_with(wrong);
    uint32_t number = one_in(&chance, 2) ? both_copy(&week, sheet).answer : both_save(&week, &sheet, desk->copy, moves, len);
    call_with(right);
    if (number != (wrong.a > 2 || wrong.n < 1 || wrong.n > MOST_LOTS ? 1 : 2))
        both_differ("a call with foreign numbers is answered %" PRIu32, number);
    if (memcmp(&sheet, &before, sizeof sheet) != 0)
        both_differ("a call with foreign numbers changes the sheet");
    foreign_calls++;
}

static void play_history(void)
{
    uint32_t n = one_in(&chance, 40) ? 9 + below(&chance, 16) : 1 + below(&chance, 8);
    uint32_t desk_count = 1 + below(&chance, DESKS), calls = 1 + below(&chance, CALLS);
    week_around(&chance, &week, n, opened_with);
    accepted_count = 0;
    struct elurkantza_opened opened = both_open(&week, opened_with, n);
    if (opened.answer != 0)
        both_differ("the sheet does not open");
    sheet = opened.sheet;
    for (uint32_t d = 0; d < desk_count; d++)
        desk_copies(&desks[d]);
    for (uint32_t call = 0; call < calls; call++) {
        struct desk *desk = &desks[below(&chance, desk_count)];
        other_numbers();
        if (one_in(&chance, 12))
            foreign_call(desk);
        else if (one_in(&chance, 4))
            desk_copies(desk);
        else
            desk_saves(desk);
        judge_order();
    }
    judge_end();
    for (size_t i = 0; i + 1 < accepted_count; i++)
        judge_turned_round(i);
}

/* One lot goes to and fro until the sheet has taken its last save; after that every save is refused 14. */
static void play_to_the_last_save(void)
{
    uint8_t order[1] = {1}, moves[2] = {0, 2};
    both_at(NULL, NULL, 0, 0); /* no chance in it */
    week_plain(&week, 1, 0, 0, 6);
    sheet = both_open(&week, order, 1).sheet;
    for (uint32_t saves = 0; saves < MOST_SAVES; saves++) {
        moves[1] = 3 - sheet.order[0];
        if (both_save(&week, &sheet, saves, moves, 2) != 0 || sheet.saves != saves + 1)
            both_differ("a save is refused, or not counted, before the last");
    }
    moves[1] = 3 - sheet.order[0];
    if (both_save(&week, &sheet, fresh_copy(sheet), moves, 2) != 14)
        both_differ("a save is taken beyond the last");
}

static bool enough_of_all(uint64_t histories)
{
    bool enough = often_enough("a well-formed stale save", stale_saves, histories);
    enough = often_enough("a well-formed save that is not stale", fresh_saves, histories) && enough;
    enough = often_enough("a save played again", replayed, histories) && enough;
    enough = often_enough("a pair turned round", turned_round, histories / 2) && enough;
    enough = often_enough("a call with foreign numbers", foreign_calls, histories) && enough;
    enough = often_enough("a save refused 10", both_count(SAVE, 10), 50) && enough;
    enough = often_enough("a save refused 11", both_count(SAVE, 11), 50) && enough;
    return often_enough("a save refused 13", both_count(SAVE, 13), 50) && enough;
}

int main(int count, char **arguments)
{
    const struct run run = both_run(count, arguments, "histories SEED HISTORIES [FIRST]");
    for (uint64_t index = run.first; index < run.first + run.count; index++) {
        both_at("histories", "history", run.seed, index);
        chance = chance_of(run.seed, index);
        play_history();
    }
    bool enough = run.repeats || enough_of_all(run.count);
    if (!run.repeats)
        play_to_the_last_save();
    printf("well-formed saves: stale %" PRIu64 ", not stale %" PRIu64 "; played again %" PRIu64 "; pairs turned round %"
           PRIu64 "; calls with foreign numbers %" PRIu64 "\n", stale_saves, fresh_saves, replayed, turned_round, foreign_calls);
    printf("histories: seed %" PRIu64 ", %" PRIu64 " histories, %" PRIu64 " calls alike\n", run.seed, run.count, both_calls());
    return enough ? 0 : 1;
}
