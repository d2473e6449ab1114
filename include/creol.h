/* The entries of the Creol engine for programs in C: link libcreol.a.
 *
 * Every function takes any bytes of any number, any cells of any number, any choices and any budget,
 * and gives one answer:
 *
 *     number + 2^8 * column + 2^16 * line + 2^32 * steps + 2^48 * quiet
 *
 * The number is 0 for an acceptance, and else that of the refusal; the line is counted from 1,
 * and 0 where the number names none. Steps and quiet are those of an accepted drive, and else 0; no function gives
 * a column.
 *
 * No function keeps a pointer. What has length 0 may have a null pointer.
 */
#ifndef CREOL_H
#define CREOL_H

#include <stddef.h>
#include <stdint.h>

#ifdef __cplusplus
extern "C" {
#endif

/* The cells of a configuration: objects, calls, 32 rows of 10 for the objects, and 128 rows of 16 for the calls. */
#define CREOL_CELLS 2370

/* The kinds of a choice. The number that goes with an exec is an object's, with each other kind a label's. */
enum { CREOL_EXEC = 1, CREOL_ARRIVE = 2, CREOL_BIND = 3, CREOL_START = 4, CREOL_DELIVER = 5 };

/* A choice of a run: its kind, and the object or the label that goes with it. */
struct creol_choice {
    int32_t kind;
    int32_t number;
};

/* The verdict on a model text. It reads the text alone. */
uint64_t creol_judge(const uint8_t *text, size_t text_len);

/* The start of a model. It reads the text, and not what the cells hold. An acceptance writes every cell; a refusal
 * writes none. The cells must not overlap the text. */
uint64_t creol_start(const uint8_t *text, size_t text_len, int32_t *cells, size_t cells_len);

/* One step, by a choice: a kind and a number. It reads the text and the cells. An acceptance writes the next
 * configuration in the cells; a refusal writes none. The cells must not overlap the text. */
uint64_t creol_step(const uint8_t *text, size_t text_len, int32_t *cells, size_t cells_len, int32_t kind, int32_t number);

/* A run: one step after the other, by a list of choices. The length of the choices counts choices. The answers have one
 * place for each choice: their length is that of the choices, and any other is refused with 13. It reads the text, the
 * cells and the choices. An acceptance writes the last configuration in the cells and every answer: 0 where the choice
 * was accepted, and else the number of its refusal, behind which the run goes on. A refusal writes no cell and no
 * answer. Cells and answers must not overlap each other, nor the text or the choices. */
uint64_t creol_run(const uint8_t *text, size_t text_len, int32_t *cells, size_t cells_len,
                   const struct creol_choice *choices, size_t choices_len, int32_t *answers, size_t answers_len);

/* A drive: up to budget steps, each the first that is accepted of exec 1, 2 and so on, arrive, bind, start and deliver.
 * A budget over 10,000 is refused with 14. It reads the text and the cells. An acceptance writes the last configuration
 * in the cells, and gives the steps that were taken, and quiet: 1 where no choice is accepted in that configuration. A
 * refusal writes no cell. The cells must not overlap the text. */
uint64_t creol_drive(const uint8_t *text, size_t text_len, int32_t *cells, size_t cells_len, uint32_t budget);

#ifdef __cplusplus
}
#endif

/* The parts of an answer. */
static inline unsigned creol_number(uint64_t answer) { return (unsigned)(answer & 0xff); }
static inline unsigned creol_line(uint64_t answer) { return (unsigned)(answer >> 16 & 0xffff); }
static inline unsigned creol_steps(uint64_t answer) { return (unsigned)(answer >> 32 & 0xffff); }
static inline unsigned creol_quiet(uint64_t answer) { return (unsigned)(answer >> 48 & 1); }

#endif
