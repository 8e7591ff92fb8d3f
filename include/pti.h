/* Run records of PTI-nets: the C interface of the verified library (libpti.a, made by `./library`).
 *
 * Texts and buffers are lent for the length of a call: a pointer and a length. No pointer is null; an empty text is any
 * pointer that is not null with length 0. A buffer may overlap no text and no other buffer. A refused call writes to no
 * buffer; past what an accepted one writes, a buffer keeps its contents. A line of a text that is read ends with byte 10 or with
 * bytes 13 and 10, and a text may have both; what is written has byte 10 alone. The numbers and spots are those of document 01:
 * number and spot are 0 where a call is accepted, and a, b and c are 0 where it is refused, and where nothing is said of them.
 */
#ifndef PTI_H
#define PTI_H

#include <stddef.h>
#include <stdint.h>

#ifdef __cplusplus
extern "C" {
#endif

typedef struct { uint64_t number, spot, a, b, c; } pti_answer;
typedef struct { uint64_t number, spot; double usable, draw, left; } pti_energy_answer;

/* Buffers of these sizes, in bytes and in counts, are never too short; the program's has just this one. */
#define PTI_RECORD_BYTES 48256
#define PTI_TABLE_BYTES 16384
#define PTI_ROW_COUNTS 4128
#define PTI_ARRANGEMENT_BYTES 768
#define PTI_PROGRAM_BYTES 48275

/* Reads a net. a: places, b: transitions. Refusals 11 to 15, 51 and 54, which are the net's in what follows. */
pti_answer pti_read_net(const uint8_t *net, size_t net_len);

/* Builds the record of a step log. a: bytes written. Refusals 20, the net's, 21 to 27. */
pti_answer pti_build(const uint8_t *net, size_t net_len, const uint8_t *log, size_t log_len, uint8_t *out, size_t out_len);

/* Checks a proposed record and writes its order: at 128 * e + f, 2 if e is strictly before f, 1 if only not later, else 0.
 * a: events, b: conditions, c: independent pairs, those free to swap. Refusals 30, the net's, 31 to 39. */
pti_answer pti_check(const uint8_t *net, size_t net_len, const uint8_t *record, size_t record_len, uint8_t *table, size_t table_len);

/* Replays an arrangement and writes the markings: row k's count of place p at 32 * k + p. a: lines played.
 * Refusals 40, the net's, 31 to 39, 41 to 45. */
pti_answer pti_replay(const uint8_t *net, size_t net_len, const uint8_t *record, size_t record_len, const uint8_t *arrangement, size_t arrangement_len, uint16_t *rows, size_t rows_len);

/* Writes the shortest arrangement. a: bytes written, b: lines. Refusals 50, the net's, 31 to 39. */
pti_answer pti_arrange(const uint8_t *net, size_t net_len, const uint8_t *record, size_t record_len, uint8_t *out, size_t out_len);

/* The energy of the hold-up capacitor and what the events of a record draw from it, in microjoules. usable: what the capacitor
 * gives between full and cutoff; draw: the sum over the events, exactly; left: usable less draw, below 0 where it falls short.
 * The energy text is a line K,capacitance,full,cutoff in microfarads and millivolts, and for each transition of the net, in
 * order, a line J,microjoules or W,milliwatts,milliseconds. Refusals: the net's, 31 to 39, 52, 53; the three are 0 where it is
 * refused. */
pti_energy_answer pti_energy(const uint8_t *net, size_t net_len, const uint8_t *record, size_t record_len, const uint8_t *energy, size_t energy_len);

/* Where a line stands, of the net text (choice 0) or the second text (choice 1), without its ending, 10 or 13 and 10.
 * a: its start in the chosen text, b: its length; both 0 when refused. Refusal 46. */
pti_answer pti_refused_line(const uint8_t *net, size_t net_len, const uint8_t *second, size_t second_len, uint8_t choice, size_t line);

/* What the program prints for an input: net, a line `=`, log. out has PTI_PROGRAM_BYTES bytes. a: bytes written, also of an
 * `X` line. The call itself is never refused. */
pti_answer pti_program(const uint8_t *input, size_t input_len, uint8_t *out);

#ifdef __cplusplus
}
#endif

#endif
