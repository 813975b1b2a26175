/*
 * Tegrwyllt: a RISC-V hart with physical memory protection and Sv39, for C.
 *
 * A slice is passed as a pointer and a number of elements. The caller sees to
 * it that each pointer is aligned for its elements and not null, for an empty
 * slice too; that all elements are initialised; and that no two slices of a
 * call overlap. Given that, every function is proved to do what its contract
 * says, whatever the slices hold and however long they are. Nothing is kept
 * from one call to the next.
 *
 * A hart is 43 words, first those of form 1 of a saved text: mode pc
 * mstatus medeleg mideleg mie mip lines mtvec mcounteren mcountinhibit mscratch
 * mepc mcause mtval stvec scounteren sscratch sepc scause stval mcycle minstret
 * pmpcfg0 pmpcfg2 pmpaddr0 .. pmpaddr15; then satp and the grain. mip has the
 * software bits only. The pmpaddr words are as stored, whatever a CSR read shows
 * of them.
 *
 * The grain is G, 0 to 10: protection is by 2^(G+2) bytes. It is chosen by
 * tegrwyllt_make, and no step changes it, but step 0 turns one above 10 into 0.
 *
 * The memory is the page tables: words of 64 bits standing at the physical
 * address base. It may have any number of words, also none, and is only read, by
 * accesses that Sv39 translates. A base that is no multiple of 8, or that with 8
 * added for each word is above 2^56, is refusal 13 at steps 14 to 16. A query is
 * about a physical address, so it is lent no memory.
 *
 * A saved text has one of two forms. Form 1 is 41 lines, 1027 bytes: it has no
 * place for satp, the grain, SUM and a delegated page fault. Form 2 has all of
 * them: a line that tells the form, those 41 lines, satp and the grain, 1094 bytes.
 *
 * A map is 100 words: its count, then first byte, last byte and owner of each
 * of 33 ranges. An owner is an entry, 0 to 15, or 16 for none.
 *
 * An answer is four words, those not named 0:
 *   0                   done
 *   1 value             done, with the old value of a CSR
 *   2 flag              done, with yes (1) or no (0)
 *   3 0 0 entry         granted
 *   4 cause mode entry  trapped, with the destination mode
 *   5 number            refused
 *   5 8 record          refused, with the number of a broken record (of a feed)
 *   6 cause 0 entry     fault (of a query)
 * The entry is the one that decided on the access, 0 to 15, or 16 for none: that
 * of the last check, be it of the access or of a page-table read. A page fault, an
 * entry outside the memory and a trap that comes from no access have none.
 *
 * A trace is records of 60 bytes, a step each: three lines, step=, a= and b=, each
 * with 16 lower-case hexadecimal digits and a line feed. Arguments that the step does
 * not use are 0. It may come in scraps of any length, cut anywhere: however it is cut,
 * and whatever room there is for answers, these are the same in the end, and so are
 * the hart, the map, the number of the next record, whether the reader has stopped and
 * the bytes left over, where each record is lent the same memory.
 *
 * A reader of a trace is 59 bytes and a place. The bytes are those of a record that
 * is not whole yet, and 0 behind them. The place is four words: how many bytes they
 * are, 59 if it is more; the number of the next record, from 0 modulo 2^64; 1 if the
 * reader has stopped, else 0; and the number of answers that the last feed wrote. All
 * zeros are a reader before the first byte.
 *
 * A record with another line, a step above 17, or an unused argument that is not 0 is
 * broken: refusal 8, judged once all its 60 bytes are there, whose answer is the words
 * 5, 8, the record's number and 0. The reader has stopped then: it takes all later bytes
 * and ignores them, it carries none, and its number stays that of the broken record.
 */
#ifndef TEGRWYLLT_H
#define TEGRWYLLT_H

#include <stddef.h>
#include <stdint.h>

#ifdef __cplusplus
extern "C" {
#endif

#define TEGRWYLLT_HART_WORDS 43
#define TEGRWYLLT_MAP_WORDS 100
#define TEGRWYLLT_STEP_WORDS 3
#define TEGRWYLLT_ANSWER_WORDS 4
#define TEGRWYLLT_RECORD_BYTES 60
#define TEGRWYLLT_CARRIED_BYTES 59
#define TEGRWYLLT_PLACE_WORDS 4
#define TEGRWYLLT_FIRST_FORM 1
#define TEGRWYLLT_SECOND_FORM 2
#define TEGRWYLLT_FIRST_TEXT_BYTES 1027
#define TEGRWYLLT_SECOND_TEXT_BYTES 1094
#define TEGRWYLLT_NO_OWNER 16
#define TEGRWYLLT_NO_ENTRY 16

/*
 * What save, restore and convert give where the form is neither 1 nor 2, or the hart or the map has another length; what feed gives where a
 * length is another, or the word that tells whether the reader has stopped; and what left gives where the length is another.
 */
#define TEGRWYLLT_MISFIT UINT64_MAX

/*
 * Makes a hart as after reset, with a grain G, and its map. A G above 10 counts as
 * 0. Gives 1; or 0, and changes nothing, where a length is another.
 */
uint64_t tegrwyllt_make(uint64_t grain,
                        uint64_t *hart, size_t hart_length,
                        uint64_t *map, size_t map_length);

/*
 * One step, 0 to 17, with its arguments a and b. Hart and map become what the
 * step leaves, and answer what it answers. Gives 1; or 0, and changes nothing,
 * where a length or the step's number is another.
 */
uint64_t tegrwyllt_step(uint64_t *hart, size_t hart_length,
                        uint64_t *map, size_t map_length,
                        const uint64_t *memory, size_t memory_length,
                        uint64_t base,
                        uint64_t step, uint64_t a, uint64_t b,
                        uint64_t *answer, size_t answer_length);

/*
 * Steps in order, each given what the one before left, and all of them the same
 * memory. A step is three words, its number, a and b; answers has four words for
 * each step. Gives 1; or 0, and changes nothing, where a length or any step's
 * number is another.
 */
uint64_t tegrwyllt_run(uint64_t *hart, size_t hart_length,
                       uint64_t *map, size_t map_length,
                       const uint64_t *memory, size_t memory_length,
                       uint64_t base,
                       const uint64_t *steps, size_t steps_length,
                       uint64_t *answers, size_t answers_length);

/*
 * What the map says of an access in an effective mode (0 U, 1 S, 3 M), of a
 * kind (0 fetch, 1 load, 2 store). Gives 1; or 0, and changes nothing, where a
 * length, the mode or the kind is another.
 */
uint64_t tegrwyllt_query(const uint64_t *hart, size_t hart_length,
                         const uint64_t *map, size_t map_length,
                         uint64_t mode, uint64_t kind,
                         uint64_t address, uint64_t size,
                         uint64_t *answer, size_t answer_length);

/*
 * Writes the hart's text in a form, 1 or 2, to the front of a buffer. Gives 0; or the
 * refusal's number: 3; 6, the buffer is shorter than the form; 12, form 1 has no place
 * for satp, the grain, SUM or a bit of medeleg that is not 0; or TEGRWYLLT_MISFIT.
 * Unless 0, nothing is changed.
 */
uint64_t tegrwyllt_save(uint64_t form,
                        const uint64_t *hart, size_t hart_length,
                        uint8_t *text, size_t text_length);

/*
 * Reads a text of a form, 1 or 2, back as a hart and its map; with form 1 satp and the
 * grain are 0. Gives 0; or the refusal's number, 4 or 5; or TEGRWYLLT_MISFIT. Unless 0,
 * nothing is changed.
 */
uint64_t tegrwyllt_restore(uint64_t form,
                           const uint8_t *text, size_t text_length,
                           uint64_t *hart, size_t hart_length,
                           uint64_t *map, size_t map_length);

/*
 * Reads a text of the other form, and writes it in the form asked for, 1 or 2, to the
 * front of a buffer. Gives 0; or the refusal's number, 4, 5, 6 or 12, the first that
 * applies; or TEGRWYLLT_MISFIT. Unless 0, nothing is changed.
 */
uint64_t tegrwyllt_convert(uint64_t to,
                           const uint8_t *text, size_t text_length,
                           uint8_t *buffer, size_t buffer_length);

/*
 * Feeds a scrap of a trace, also an empty one, to a reader. The hart steps at each
 * record that becomes whole, with the memory lent now; what the step answers, be it a
 * refusal, is the next four words of answers, whose number is a multiple of four.
 * Words behind those of the last answer are left as they are.
 *
 * Gives how many bytes it took: all of them, or, where there is no room for the answer
 * of a record, those before its last byte. A stopped reader takes all. The caller goes
 * on with the bytes behind those taken, and room for an answer at least. Gives
 * TEGRWYLLT_MISFIT, and changes nothing, where a length is another, or the reader is
 * said to have stopped by another word than 0 or 1.
 */
uint64_t tegrwyllt_feed(uint8_t *carried, size_t carried_length,
                        uint64_t *place, size_t place_length,
                        uint64_t *hart, size_t hart_length,
                        uint64_t *map, size_t map_length,
                        const uint64_t *memory, size_t memory_length,
                        uint64_t base,
                        const uint8_t *scrap, size_t scrap_length,
                        uint64_t *answers, size_t answers_length);

/*
 * The bytes short of a record that a reader has left over, 59 at most, and 0 if it has
 * stopped; or TEGRWYLLT_MISFIT where the length is another.
 */
uint64_t tegrwyllt_left(const uint64_t *place, size_t place_length);

#ifdef __cplusplus
}
#endif

#endif
