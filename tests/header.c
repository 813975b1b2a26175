/* Each function of the archive through the header: values worked out by hand from the scope document and requests [1], [5], [8] and [9]. */
#include <inttypes.h>
#include <stdio.h>
#include <stdlib.h>
#include <string.h>

#include "tegrwyllt.h"

enum { HART = 43, MAP = 100, ANSWER = 4, TEXT = 1027, SECOND = 1094, RECORD = 60, CARRIED = 59, PLACE = 4 };

static void expect(int holds, const char *what) {
    if (!holds) {
        fprintf(stderr, "header: %s\n", what);
        exit(1);
    }
}

/* No words at address 0, as most calls are lent. */
static const uint64_t none[1];

/* Page tables from 0x80000000 on: the root, a table of level 1 and one of level 0. */
enum { TABLES = 3 * 512, SATP = 41, GRAIN = 42, MTVAL = 14 };
static const uint64_t base = 0x80000000;
static const uint64_t tables[TABLES] = {
    [0] = 0x20000401,        /* the root's entry 0 points to the table at 0x80001000 */
    [512] = 0x20000801,      /* and that one's to the table at 0x80002000 */
    [1024 + 3] = 0x240000D7, /* page 0x3000 at 0x90000000: V R W U A D */
    [1024 + 4] = 0x24000453, /* page 0x4000 at 0x90001000: V R U A */
};

static int answers(const uint64_t *answer, uint64_t kind, uint64_t value, uint64_t mode, uint64_t entry) {
    return answer[0] == kind && answer[1] == value && answer[2] == mode && answer[3] == entry;
}

/* Harts made with a grain, and protection by 16 bytes, G being 2. */
static void grains(void) {
    uint64_t hart[HART], map[MAP], answer[ANSWER], given[28];
    uint8_t text[TEXT];
    memset(hart, 0x55, sizeof hart);
    memset(map, 0x55, sizeof map);
    expect(tegrwyllt_make(2, hart, HART - 1, map, MAP) == 0, "42 words are no hart to make");
    expect(tegrwyllt_make(2, hart, HART, map, MAP - 1) == 0, "99 words are no map to make");
    expect(hart[0] == hart[GRAIN] && map[0] == hart[0], "nothing is made then");
    expect(tegrwyllt_make(11, hart, HART, map, MAP) == 1 && hart[GRAIN] == 0, "a G of 11 counts as 0");
    expect(tegrwyllt_make(2, hart, HART, map, MAP) == 1 && hart[GRAIN] == 2, "a G of 2");
    expect(hart[0] == 3 && hart[1] == 0x1000 && hart[2] == UINT64_C(0xA00000000) && hart[SATP] == 0, "made as after reset");
    expect(map[0] == 1 && map[1] == 0 && map[2] == (UINT64_C(1) << 56) - 1 && map[3] == 16, "with the reset map");

    /* All ones in pmpaddr0: what is read ends in 00 under OFF, and in 11 under NAPOT. A=2 is left out. */
    const uint64_t ones = (UINT64_C(1) << 54) - 1;
    const uint64_t steps[] = {1, 0x3B0, ones, 4, 0x3B0, 0, 1, 0x3A0, 0x18, 1, 0x3A0, 0x17, 4, 0x3A0, 0, 4, 0x3B0, 0, 1, 0x3B0, 4};
    expect(tegrwyllt_run(hart, HART, map, MAP, none, 0, 0, steps, 21, given, 28) == 1, "a run with a grain");
    expect(answers(given + 4, 1, ones - 3, 0, 0), "the low two bits read as zeros");
    expect(answers(given + 16, 1, 0x18, 0, 0), "A=2 left the byte as it was");
    expect(answers(given + 20, 1, ones, 0, 0), "the stored value is kept");
    expect(hart[25] == 4 && map[0] == 3 && map[4] == 0x10 && map[5] == 0x1F && map[6] == 0, "NAPOT 4 reads 5: 16 bytes");
    expect(tegrwyllt_query(hart, HART, map, MAP, 1, 1, 0x18, 8, answer, ANSWER) == 1 && answers(answer, 6, 5, 0, 0), "entry 0 denies S there");
    expect(tegrwyllt_save(1, hart, HART, text, TEXT) == 12, "a grain has no place in the first form: refusal 12");

    /* Step 0 keeps the grain; one above 10 can be held by no hart, and becomes 0. */
    expect(tegrwyllt_step(hart, HART, map, MAP, none, 0, 0, 0, 0, 0, answer, ANSWER) == 1 && hart[GRAIN] == 2, "reset keeps the grain");
    hart[GRAIN] = 11;
    expect(tegrwyllt_save(1, hart, HART, text, TEXT) == 3, "refusal 3, before 12");
    expect(tegrwyllt_step(hart, HART, map, MAP, none, 0, 0, 11, 0, 0, answer, ANSWER) == 1 && answers(answer, 5, 3, 0, 0), "and at a step");
    expect(tegrwyllt_step(hart, HART, map, MAP, none, 0, 0, 0, 0, 0, answer, ANSWER) == 1 && hart[GRAIN] == 0, "reset");
}

/* A reader with its hart and map, and the answers of a whole trace. */
struct reader {
    uint8_t carried[64]; /* 59, and some behind that no feed is lent */
    uint64_t place[PLACE], hart[HART], map[MAP], given[8 * ANSWER];
    size_t answered;
};

/* Feeds all the bytes in pieces of a length, each with room for so many answers, or for one where that takes no byte. */
static void in_pieces(struct reader *reader, const uint8_t *bytes, size_t length, size_t piece, size_t room) {
    for (size_t at = 0; at < length;) {
        const size_t rest = length - at, given = rest < piece ? rest : piece;
        uint64_t *answers = reader->given + ANSWER * reader->answered;
        uint64_t taken = tegrwyllt_feed(reader->carried, CARRIED, reader->place, PLACE, reader->hart, HART, reader->map, MAP, none, 0, 0,
                                        bytes + at, given, answers, ANSWER * room);
        expect(taken <= given && reader->place[3] <= room, "no more is taken and answered than there is");
        if (taken == 0) {
            expect(room == 0 && tegrwyllt_left(reader->place, PLACE) == CARRIED, "only a 60th byte waits for room");
            taken = tegrwyllt_feed(reader->carried, CARRIED, reader->place, PLACE, reader->hart, HART, reader->map, MAP, none, 0, 0,
                                   bytes + at, given, answers, ANSWER);
            expect(taken > 0 && reader->place[3] == 1, "it has an answer");
        }
        at += taken;
        reader->answered += reader->place[3];
    }
}

/* One feed of a record, with slices of these lengths. */
static uint64_t feed_of(struct reader *reader, const uint8_t *bytes, size_t carried, size_t place, size_t hart, size_t map, size_t answers) {
    return tegrwyllt_feed(reader->carried, carried, reader->place, place, reader->hart, hart, reader->map, map, none, 0, 0, bytes, RECORD,
                          reader->given, answers);
}

/* A trace of six records in scraps: W1's entry, an access to it, a refused step, a broken record, and one that is not read. */
static void traces(void) {
    static const char text[] = "step=0000000000000001\na=00000000000003b0\nb=0000000000000003\n"
                               "step=0000000000000001\na=00000000000003a0\nb=0000000000000090\n"
                               "step=000000000000000f\na=0000000000000008\nb=0000000000000008\n"
                               "step=000000000000000f\na=0000000000000008\nb=0000000000000003\n"
                               "step=000000000000000b\na=0000000000000000\nb=0000000000000001\n"
                               "step=0000000000000000\na=0000000000000000\nb=0000000000000000\n";
    const uint8_t *bytes = (const uint8_t *)text;
    const size_t length = sizeof text - 1;
    struct reader start = {0}, whole, cut;
    expect(length == 6 * RECORD, "60 bytes a record");
    expect(tegrwyllt_make(0, start.hart, HART, start.map, MAP) == 1, "a hart to feed");
    memset(start.given, 0x55, sizeof start.given);
    start.place[1] = UINT64_MAX - 3;

    /* In one piece: the fifth record, of number 0, has an argument that ECALL does not use. */
    whole = start;
    in_pieces(&whole, bytes, length, length, 8);
    expect(whole.answered == 5, "five answers");
    expect(answers(whole.given + 4, 1, 0, 0, 0) && answers(whole.given + 8, 4, 5, 3, 0), "a write is done, the load faults by entry 0");
    expect(answers(whole.given + 12, 5, 1, 0, 0), "a refused step is an answer, and reading goes on");
    expect(answers(whole.given + 16, 5, 8, 0, 0), "refusal 8 with the record's number, which wraps");
    expect(whole.given[20] == start.given[20], "no answer more");
    expect(whole.place[0] == 0 && whole.place[1] == 0 && whole.place[2] == 1, "stopped at the broken record");
    expect(tegrwyllt_left(whole.place, PLACE) == 0, "nothing is left over");
    expect(whole.map[0] == 3 && whole.map[4] == 0xC && whole.map[6] == 0, "the map has the entry's bytes, and no reset was read");

    /* In odd pieces, with room for few answers or none. */
    for (size_t piece = 1; piece <= 130; piece++) {
        for (size_t room = 0; room < 3; room++) {
            cut = start;
            in_pieces(&cut, bytes, length, piece, room);
            whole.place[3] = cut.place[3];
            expect(memcmp(&cut, &whole, sizeof cut) == 0, "the same however cut");
        }
    }

    /* A record is judged with its last byte; what is short of one is left over. */
    cut = start;
    in_pieces(&cut, bytes, 4 * RECORD + 59, 77, 1);
    expect(cut.answered == 4 && cut.place[0] == 59 && cut.place[1] == 0 && cut.place[2] == 0, "59 bytes of a broken record");
    expect(tegrwyllt_left(cut.place, PLACE) == 59 && memcmp(cut.carried, bytes + 4 * RECORD, 59) == 0, "are left over");
    cut.place[0] = UINT64_MAX;
    expect(tegrwyllt_left(cut.place, PLACE) == 59, "a count above 59 is 59");
    in_pieces(&cut, bytes + 4 * RECORD + 59, 1, 1, 1);
    expect(answers(cut.given + 16, 5, 8, 0, 0) && cut.carried[0] == 0, "the 60th");

    /* Another length, or a reader that has neither stopped nor not, changes nothing. */
    cut = start;
    expect(feed_of(&cut, bytes, 58, PLACE, HART, MAP, 4) == TEGRWYLLT_MISFIT, "58 bytes are not carried");
    expect(feed_of(&cut, bytes, CARRIED, 3, HART, MAP, 4) == TEGRWYLLT_MISFIT, "three words are no place");
    expect(feed_of(&cut, bytes, CARRIED, PLACE, HART - 1, MAP, 4) == TEGRWYLLT_MISFIT, "42 words are no hart");
    expect(feed_of(&cut, bytes, CARRIED, PLACE, HART, MAP - 1, 4) == TEGRWYLLT_MISFIT, "99 words are no map");
    expect(feed_of(&cut, bytes, CARRIED, PLACE, HART, MAP, 6) == TEGRWYLLT_MISFIT, "an answer and a half");
    expect(memcmp(&cut, &start, sizeof cut) == 0, "nothing is changed");
    cut.place[2] = start.place[2] = 2;
    expect(feed_of(&cut, bytes, CARRIED, PLACE, HART, MAP, 4) == TEGRWYLLT_MISFIT, "neither stopped nor not");
    expect(memcmp(&cut, &start, sizeof cut) == 0, "nor then");
    expect(tegrwyllt_left(cut.place, PLACE) == 0, "left takes any word but 0 for stopped");
    expect(tegrwyllt_left(cut.place, 3) == TEGRWYLLT_MISFIT && tegrwyllt_left(cut.place, 5) == TEGRWYLLT_MISFIT, "no place has another length");
}

int main(void) {
    uint64_t hart[HART] = {0}, map[MAP] = {0}, answer[ANSWER];

    /* A state that no hart can hold steps only by a reset. */
    hart[0] = 2;
    expect(tegrwyllt_step(hart, HART, map, MAP, none, 0, 0, 11, 0, 0, answer, ANSWER) == 1, "a refused step is a step");
    expect(answers(answer, 5, 3, 0, 0) && hart[0] == 2, "refusal 3 leaves the hart");
    expect(tegrwyllt_step(hart, HART, map, MAP, none, 0, 0, 0, 0, 0, answer, ANSWER) == 1, "reset");
    expect(answers(answer, 0, 0, 0, 0), "reset is done");
    expect(hart[0] == 3 && hart[1] == 0x1000 && hart[2] == UINT64_C(0xA00000000), "the reset state");
    expect(map[0] == 1 && map[1] == 0 && map[2] == (UINT64_C(1) << 56) - 1 && map[3] == 16, "the reset map");

    /* Entry 0: NA4 at word 3, locked, no rights; an access of 8 bytes at 8 touches it and faults in M too. */
    const uint64_t steps[] = {1, 0x3B0, 3, 1, 0x3A0, 0x90, 15, 0x8, 8, 15, 0x10, 8, 15, 0, 3};
    uint64_t told[20], kept[20];
    expect(tegrwyllt_run(hart, HART, map, MAP, none, 0, 0, steps, 15, told, 20) == 1, "a run");
    expect(answers(told, 1, 0, 0, 0) && answers(told + 4, 1, 0, 0, 0), "CSR writes answer the old value");
    expect(answers(told + 8, 4, 5, 3, 0), "the load faults to M, by entry 0");
    expect(answers(told + 12, 3, 0, 0, TEGRWYLLT_NO_ENTRY), "the load beside it is granted, by none");
    expect(answers(told + 16, 5, 1, 0, 0), "a size of 3 is refusal 1");
    expect(map[0] == 3 && map[4] == 0xC && map[5] == 0xF && map[6] == 0, "the map has the entry's bytes");

    /* A trap that comes from no access has no entry: ECALL from M. */
    expect(tegrwyllt_step(hart, HART, map, MAP, none, 0, 0, 11, 0, 0, answer, ANSWER) == 1 && answers(answer, 4, 11, 3, TEGRWYLLT_NO_ENTRY), "ECALL");

    /* The query answers as the step does. */
    expect(tegrwyllt_query(hart, HART, map, MAP, 3, 1, 0x8, 8, answer, ANSWER) == 1 && answers(answer, 6, 5, 0, 0), "a fault by entry 0");
    expect(tegrwyllt_query(hart, HART, map, MAP, 3, 1, 0x10, 8, answer, ANSWER) == 1 && answers(answer, 3, 0, 0, 16), "granted by none");
    expect(tegrwyllt_query(hart, HART, map, MAP, 1, 0, 0x10, 4, answer, ANSWER) == 1 && answers(answer, 6, 1, 0, 16), "S has no entry");
    expect(tegrwyllt_query(hart, HART, map, MAP, 2, 0, 0x10, 4, answer, ANSWER) == 0, "there is no mode 2");
    expect(tegrwyllt_query(hart, HART, map, MAP, 3, 1, 0x10, 8, answer, 3) == 0, "three words are no answer");

    /* Neighbours of one owner, entry 1, which is unlocked: each byte's range is read. No range holds byte 0x10. */
    uint64_t two[MAP] = {2, 0, 7, 1, 8, 0xF, 1};
    expect(tegrwyllt_query(hart, HART, two, MAP, 3, 2, 4, 8, answer, ANSWER) == 1 && answers(answer, 3, 0, 0, 1), "granted across the border");
    expect(tegrwyllt_query(hart, HART, two, MAP, 3, 2, 0xC, 8, answer, ANSWER) == 1 && answers(answer, 5, 7, 0, 0), "refusal 7");
    two[6] = 0;
    expect(tegrwyllt_query(hart, HART, two, MAP, 3, 2, 4, 8, answer, ANSWER) == 1 && answers(answer, 6, 7, 0, 0), "the lower of two owners faults");

    /* A text goes round without loss; bytes past it stay. */
    uint8_t text[TEXT + 1];
    uint64_t back[HART], ranges[MAP];
    text[TEXT] = 0x5A;
    expect(tegrwyllt_save(1, hart, HART, text, TEXT - 1) == 6, "a buffer of 1,026 bytes is refusal 6");
    expect(tegrwyllt_save(1, hart, HART, text, TEXT + 1) == 0 && text[TEXT] == 0x5A, "saved");
    expect(memcmp(text, "mode=0000000000000003\n", 22) == 0, "the first line");
    expect(tegrwyllt_restore(1, text, TEXT + 1, back, HART, ranges, MAP) == 4, "1,028 bytes are refusal 4");
    expect(tegrwyllt_restore(1, text, TEXT, back, HART, ranges, MAP) == 0, "read back");
    expect(memcmp(hart, back, sizeof hart) == 0 && memcmp(map, ranges, sizeof map) == 0, "the same hart and map");

    /* So does it to the second form and back. */
    uint8_t second[SECOND + 1], again[TEXT];
    second[SECOND] = 0x5A;
    expect(tegrwyllt_convert(2, text, TEXT, second, SECOND - 1) == 6, "a buffer of 1,093 bytes is refusal 6");
    expect(tegrwyllt_convert(2, text, TEXT, second, SECOND + 1) == 0 && second[SECOND] == 0x5A, "converted");
    expect(memcmp(second, "form=0000000000000002\n", 22) == 0 && memcmp(second + 22, text, TEXT) == 0, "the form, then the 41 lines");
    expect(memcmp(second + 22 + TEXT, "satp=0000000000000000\ngrain=0000000000000000\n", 45) == 0, "then satp and the grain");
    expect(tegrwyllt_convert(1, second, SECOND, again, TEXT) == 0 && memcmp(again, text, TEXT) == 0, "and back");
    expect(tegrwyllt_convert(2, second, SECOND, again, TEXT) == 4, "a text of the same form is refusal 4");
    expect(tegrwyllt_restore(2, text, TEXT, back, HART, ranges, MAP) == 4, "the other form is refusal 4");
    expect(tegrwyllt_save(0, hart, HART, text, TEXT) == TEGRWYLLT_MISFIT, "there is no form 0");
    expect(tegrwyllt_restore(3, text, TEXT, back, HART, ranges, MAP) == TEGRWYLLT_MISFIT, "nor 3");
    expect(tegrwyllt_convert(3, text, TEXT, again, TEXT) == TEGRWYLLT_MISFIT, "nor to convert to");
    expect(memcmp(again, text, TEXT) == 0 && memcmp(hart, back, sizeof hart) == 0, "and nothing is changed");

    /* Slices of another length change nothing. */
    expect(tegrwyllt_step(hart, HART - 1, map, MAP, none, 0, 0, 0, 0, 0, answer, ANSWER) == 0, "42 words are no hart");
    expect(tegrwyllt_step(hart, HART, map, MAP, none, 0, 0, 18, 0, 0, answer, ANSWER) == 0, "there is no step 18");
    memcpy(kept, told, sizeof told);
    expect(tegrwyllt_run(hart, HART, map, MAP, none, 0, 0, steps, 15, told, 15) == 0, "three words for each answer are too few");
    expect(memcmp(hart, back, sizeof hart) == 0 && memcmp(map, ranges, sizeof map) == 0, "hart and map are left");
    expect(memcmp(told, kept, sizeof told) == 0, "and so are the answers");

    /* Entry 1 gets all memory, satp the root, and MPRV lets M load and store as U. */
    const uint64_t paging[] = {1, 0x3B1, (UINT64_C(1) << 54) - 1, 1, 0x3A0, 0x1F90, 1, 0x180, UINT64_C(0x8000000000080000), 1, 0x300, 0x20000,
                               15, 0x3FFC, 8, 16, 0x3FFC, 4};
    uint64_t given[24];
    expect(tegrwyllt_run(hart, HART, map, MAP, tables, TABLES, base, paging, 18, given, 24) == 1, "a run with page tables");
    expect(hart[SATP] == UINT64_C(0x8000000000080000) && answers(given + 8, 1, 0, 0, 0), "satp was 0 and is written");
    expect(answers(given + 16, 3, 0, 0, 1), "a load across two pages is granted, by entry 1");
    expect(answers(given + 20, 3, 0, 0, 1), "a store to the first of them is granted");
    expect(tegrwyllt_step(hart, HART, map, MAP, tables, TABLES, base + 4, 15, 0x3FFC, 3, answer, ANSWER) == 1, "a base of no whole word");
    expect(answers(answer, 5, 13, 0, 0), "refusal 13, before 1");
    expect(tegrwyllt_step(hart, HART, map, MAP, tables, 1024, base, 15, 0x3008, 8, answer, ANSWER) == 1, "a table outside the memory");
    expect(answers(answer, 4, 5, 3, 16) && hart[MTVAL] == 0x3008, "an access fault at the virtual address");
    hart[2] = UINT64_C(0xA00020000);
    expect(tegrwyllt_step(hart, HART, map, MAP, tables, TABLES, base, 16, 0x3FFC, 8, answer, ANSWER) == 1, "a store across");
    expect(answers(answer, 4, 15, 3, 16) && hart[MTVAL] == 0x4000, "a page fault of its second part");
    expect(tegrwyllt_save(1, hart, HART, text, TEXT) == 12, "satp has no place in the first form: refusal 12");
    expect(tegrwyllt_save(1, hart, HART, text, TEXT - 1) == 6, "after 6");
    expect(tegrwyllt_save(2, hart, HART, second, SECOND) == 0, "it has one in the second");
    expect(tegrwyllt_restore(2, second, SECOND, back, HART, ranges, MAP) == 0 && memcmp(hart, back, sizeof hart) == 0, "and is read back");
    expect(tegrwyllt_convert(1, second, SECOND, again, TEXT) == 12, "converting has no other place for it");
    grains();
    traces();
    puts("header: every function answers as the scope document says");
    return 0;
}
