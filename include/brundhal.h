/* brundhal.h: the hexahedral-mesh inspector, for callers in C.
 *
 * The library decides in whole numbers, without rounding, whether the Jacobian
 * determinant of trilinear hexahedra is positive. Its code is proved against
 * definitions that lay down every answer (crates/definitions; of lot files
 * crates/lot_format, of slips crates/slip_format). It also reads and
 * writes the lot files in which meshes arrive, prints slips of them, and reckons
 * with numbers of two words.
 * Link with libbrundhal.a; no other library is needed but the C library's
 * memory functions (memset and the like).
 *
 * What a caller has to know:
 *
 * - Every length is a number of ELEMENTS of the array: of bytes only for an array
 *   of uint8_t, never for one of int32_t, uint32_t or int64_t.
 * - Nothing has to be checked before a call. Wrong depths, wrong lengths,
 *   indices that name no node, nodes named twice in an element, coordinates outside
 *   the range and files of any bytes are answered with their number, as below.
 * - All memory is the caller's. The library keeps no pointer after a call,
 *   allocates nothing, holds no state and may be called from several threads
 *   at once. Only lent space is written: the report of an inspection, the nodes,
 *   elements and groups of a lot that is read, the file of one that is written, a
 *   slip. An answer with a number other than 0 leaves it untouched, and space past
 *   the end of an answer is left as it was.
 * - What the library cannot see is the caller's part: each pointer must be
 *   valid for the length that stands beside it and aligned for its type, and
 *   lent space must not overlap anything else that is handed in. A null pointer
 *   is not allowed, not even with a length of 0: pass the address of anything of
 *   the right type then.
 */
#ifndef BRUNDHAL_H
#define BRUNDHAL_H

#include <stddef.h>
#include <stdint.h>

#ifdef __cplusplus
extern "C" {
#endif

/* The version of this header, and of the library that is linked. It rises whenever a
 * layout, a limit or an answer that a caller sees changes. Header and library are of
 * one layout only where brundhal_version() == BRUNDHAL_VERSION: a caller asks this
 * first, and where it does not hold calls no other function. A library before
 * version 2 does not have the function, and such a caller does not link with it. */
#define BRUNDHAL_VERSION 2
uint32_t brundhal_version(void);

/* Limits: a usable coordinate is from -1,048,576 to 1,048,576; depths are 0 to 8. A
 * program that holds a report keeps to 900 elements, and so does the slip. */
#define BRUNDHAL_MAX_COORDINATE 1048576
#define BRUNDHAL_MAX_DEPTH 8
#define BRUNDHAL_MAX_NODES 5000
#define BRUNDHAL_MAX_ELEMENTS 1000
#define BRUNDHAL_SLIP_ELEMENTS 900

/* The numbers of refusals. What each function refuses, and in which order, stands
 * with its answer. */
#define BRUNDHAL_REFUSED_DEPTH 1
#define BRUNDHAL_REFUSED_NODES 2
#define BRUNDHAL_REFUSED_ELEMENTS 3
#define BRUNDHAL_REFUSED_REPORT 4
#define BRUNDHAL_REFUSED_INDEX 5
#define BRUNDHAL_REFUSED_COORDINATE 6
#define BRUNDHAL_REFUSED_TWICE 7
#define BRUNDHAL_REFUSED_LONG_FILE 20
#define BRUNDHAL_REFUSED_CUT_SHORT 21
#define BRUNDHAL_REFUSED_MARK 22
#define BRUNDHAL_REFUSED_LENGTH 23
#define BRUNDHAL_REFUSED_OUT_OF_PLACE 24
#define BRUNDHAL_REFUSED_BYTE 25
#define BRUNDHAL_REFUSED_TOO_MANY 26
#define BRUNDHAL_REFUSED_SPACE 27
#define BRUNDHAL_REFUSED_NO_ELEMENT 28

/* A signed number of two words, low 64 bits and then high, as two's complement:
 * high, as a signed number, times 2^64, and low. It is from -2^127 to 2^127 - 1, and
 * any two words are such a number. Its services stand at the end. */
typedef struct {
    uint64_t low, high;
} BrundhalNumber;

/* Report words an element: the length of a record. */
#define BRUNDHAL_RECORD_WORDS 9

/* The answer of an inspection. number is 0 for an accepted mesh. A refused mesh
 * has all four counts 0, and its number is
 *   1  the depth is above 8
 *   2  coordinates_len is no multiple of 3, or there are over 5,000 nodes
 *   3  indices_len is no multiple of 8, or there are over 1,000 elements
 *   4  report_len is not exactly 9 words an element
 * tested in this order. */
typedef struct {
    uint32_t number;
    uint32_t valid, invalid, undecided, refused; /* records of each kind */
} BrundhalInspection;

/* Inspects a mesh.
 *   coordinates  x, y, z of node 0, then of node 1, and so on; usable from
 *                -1,048,576 to 1,048,576
 *   indices      eight an element, naming nodes from 0, in the order of the
 *                reference cube's corners (0,0,0), (1,0,0), (1,1,0), (0,1,0),
 *                (0,0,1), (1,0,1), (1,1,1), (0,1,1)
 *   depth        0 to 8
 *   report       nine words an element, in element order
 * The report space is written only if the mesh is accepted (number 0), and then
 * every word of it; it need not be cleared before. A record:
 *
 *   word     valid    invalid                undecided               refused
 *   0        0        1                      2                       5, 6 or 7
 *   1        level    level                  depth                   place 1..8 (7: the lower)
 *   2, 3, 4  0        a, b, c of the point   a, b, c of the cube     5: the index, 0, 0
 *                                                                    6: axis 1..3, 0, 0
 *                                                                    7: higher place, 0, 0
 *   5        0        corner number          coefficient number      0
 *   6, 7     0, 0     J times 8*64^level     the coefficient times   0, 0
 *                                            8*64^depth
 *   8        opened   opened                 opened                  0
 *
 * Words 6 and 7 are the value, a number of two words, low and then high; each stands
 * in the report as the signed number of its 64 bits. brundhal_record_value reads it.
 * 5 is an index not below the node count, 7 an index in two places of the element
 * (words 1 and 2, the lower place and the higher), 6 a coordinate outside the
 * range, tested in this order; each concerns that element's record alone. opened is
 * the number of cubes opened, at most 19,173,961 (at depth 8). The time goes with it:
 * an element that level 0 decides takes 0.1 to 0.2 microseconds, and case F of document
 * 01, which opens 174,761 cubes at depth 8, 7 milliseconds (docs/PERFORMANCE.md). */
BrundhalInspection brundhal_inspect(const int32_t *coordinates, size_t coordinates_len,
                                    const uint32_t *indices, size_t indices_len,
                                    uint32_t depth,
                                    int64_t *report, size_t report_len);

/* The auditor: a second inspector with its own cut, search and bounds, so that anyone
 * can run the two beside each other. It takes what brundhal_inspect takes and gives the
 * same, every word of the answer and of the report; it is slower (docs/PERFORMANCE.md). */
BrundhalInspection brundhal_audit(const int32_t *coordinates, size_t coordinates_len,
                                  const uint32_t *indices, size_t indices_len,
                                  uint32_t depth,
                                  int64_t *report, size_t report_len);

/* The words of a record by name. */
#define BRUNDHAL_WORD_KIND 0
#define BRUNDHAL_WORD_LEVEL 1
#define BRUNDHAL_WORD_A 2
#define BRUNDHAL_WORD_B 3
#define BRUNDHAL_WORD_C 4
#define BRUNDHAL_WORD_NUMBER 5
#define BRUNDHAL_WORD_VALUE_LOW 6
#define BRUNDHAL_WORD_VALUE_HIGH 7
#define BRUNDHAL_WORD_OPENED 8

/* The kinds of a record, beside the refusals 5, 6 and 7. */
#define BRUNDHAL_VALID 0
#define BRUNDHAL_INVALID 1
#define BRUNDHAL_UNDECIDED 2

/* The value of a record, of which record is the first word. */
static inline BrundhalNumber brundhal_record_value(const int64_t *record)
{
    BrundhalNumber value = { (uint64_t)record[BRUNDHAL_WORD_VALUE_LOW],
                             (uint64_t)record[BRUNDHAL_WORD_VALUE_HIGH] };
    return value;
}

/* The answer of the bounds service: number 0 with both bounds, or both 0 with
 *   1  the depth is above 8
 *   6  a coordinate is outside the range
 * tested in this order. low is the least coefficient of all cubes of that depth,
 * high the least J over all its grid points, both times 8*64^depth. */
typedef struct {
    uint32_t number;
    BrundhalNumber low, high;
} BrundhalBounds;

/* The bounds of eight points, x, y, z of each: 24 numbers, which are only read. All
 * cubes of the depth are gone through, eight times as many with each level: depth 8
 * has 8^8, or 16,777,216, and takes time. */
BrundhalBounds brundhal_bounds(const int32_t points[24], uint32_t depth);

/* The auditor's bounds: the same answer, found in its own way. */
BrundhalBounds brundhal_audit_bounds(const int32_t points[24], uint32_t depth);

/* The stamp of an inspection's answer:
 *   0  "sound": at least one element, and every record valid
 *   1  "faulty": a record is invalid or refused
 *   2  "open": neither
 *   3  no stamp: number is not 0, the mesh was refused */
#define BRUNDHAL_SOUND 0
#define BRUNDHAL_FAULTY 1
#define BRUNDHAL_OPEN 2
#define BRUNDHAL_NO_STAMP 3
uint32_t brundhal_stamp(BrundhalInspection answer);

/* A cube's address: its level, 0 to 8, and the grid numbers of its lowest corner, each
 * below 2^level. */
typedef struct {
    uint32_t level, a, b, c;
} BrundhalAddress;

/* Where a move led: made is 1 with the new address, or 0 with the same address
 * for a move that cannot be made. */
typedef struct {
    uint32_t made, level, a, b, c;
} BrundhalMove;

/* To child n or corner n, 1 to 8, or to the parent. */
BrundhalMove brundhal_child(BrundhalAddress q, uint32_t n);
BrundhalMove brundhal_corner(BrundhalAddress q, uint32_t n);
BrundhalMove brundhal_parent(BrundhalAddress q);

/* The longest lot file, and the lengths of lent space in which every lot fits:
 * 4,095 nodes are the most that a file holds, 1,000 elements are allowed, and a
 * file holds at most 16,382 groups and 58,244 bytes of their names. */
#define BRUNDHAL_LOT_BYTES 65536
#define BRUNDHAL_LOT_NODE_WORDS (3 * 4095)
#define BRUNDHAL_LOT_ELEMENT_WORDS (8 * BRUNDHAL_MAX_ELEMENTS)
#define BRUNDHAL_LOT_NAME_BYTES 58244
#define BRUNDHAL_LOT_GROUPS 16382

/* A lot file is records of a two-byte mark, a two-byte length and a body, every
 * number low byte first.
 *
 *   mark  length    body                                  how many, in this order
 *   LB    0 to 32   the label, bytes from 32 to 126       1
 *   ND    12        a node: x, y, z, signed 32-bit        any number
 *   HX    32        an element: eight unsigned 32-bit     0 to 1,000, with
 *   GR    0 to 32   a group's name, bytes as a label's    any number among them
 *   EN    0         none                                  1, and nothing after it
 *
 * A group is in force from where it stands until the next one. The groups of a
 * lot are three arrays:
 *   names     the names of all groups, laid end to end
 *   lengths   the length of each group's name
 *   offsets   of each group, how many elements stand before it */

/* The answer of reading a lot file. number is 0 for an accepted lot, with its
 * numbers of nodes, of elements and of groups, and names, the bytes of all groups'
 * names together; its label is a part of the caller's own file, len bytes from
 * file + start, with no 0 byte at its end. A refused lot has all else 0, and its
 * number is
 *   20  the file is longer than 65,536 bytes; tested first
 * then, record by record, the first of
 *   21  fewer than four bytes are left where a record is due
 *   22  the mark is none of LB, ND, HX, GR, EN
 *   24  the mark is out of place
 *   23  the length is not one of the mark
 *   21  the body is cut short
 *   25  a byte of a label or name is not in 32..126
 *   26  it is a 1,001st element
 * and after the last record
 *   24  bytes follow it, whatever they are
 *   27  one of the five lent arrays is too small */
typedef struct BrundhalLot {
    uint32_t number;
    uint32_t nodes, elements, groups;
    uint32_t names;
    uint32_t start, len;
} BrundhalLot;

/* Reads a lot file.
 *   nodes     lent space of at least three words a node, x, y, z of each in turn
 *   elements  lent space of at least eight words an element
 * as brundhal_inspect takes them, and
 *   names     lent space of at least a byte for each of the names' bytes
 *   lengths, offsets   lent space of at least a word a group, each
 * as brundhal_name and brundhal_write_lot take them. All five are written only if
 * the lot is accepted, and only as far as it goes. */
BrundhalLot brundhal_read_lot(const uint8_t *file, size_t file_len,
                              int32_t *nodes, size_t nodes_len,
                              uint32_t *elements, size_t elements_len,
                              uint8_t *names, size_t names_len,
                              uint32_t *lengths, size_t lengths_len,
                              uint32_t *offsets, size_t offsets_len);

/* The answer of writing a lot file: number 0 with the file's length, or 0 as its
 * length with
 *    2  nodes_len is no multiple of 3
 *    3  elements_len is no multiple of 8
 *   24  the groups do not fit together: lengths_len is not offsets_len, the lengths
 *       do not add up to names_len, or a count of elements before a group is less
 *       than the one before it or more than there are elements
 *   23  the label or a group's name is longer than 32 bytes
 *   25  a byte of the label or of the names is not in 32..126
 *   26  there are more than 1,000 elements
 *   20  the file would be longer than 65,536 bytes
 *   27  out_len is less than the file's length
 * tested in this order. */
typedef struct BrundhalWritten {
    uint32_t number;
    uint32_t len;
} BrundhalWritten;

/* Writes a lot file to the front of out. What is written reads back the same, and
 * a lot that was read is written back byte for byte. */
BrundhalWritten brundhal_write_lot(const uint8_t *label, size_t label_len,
                                   const int32_t *nodes, size_t nodes_len,
                                   const uint32_t *elements, size_t elements_len,
                                   const uint8_t *names, size_t names_len,
                                   const uint32_t *lengths, size_t lengths_len,
                                   const uint32_t *offsets, size_t offsets_len,
                                   uint8_t *out, size_t out_len);

/* The answer of naming an element. number is 0 with the name that it bears, a part
 * of the caller's own bytes with no 0 byte at its end: grouped 1, and len bytes from
 * names + start; or grouped 0, and the whole label, start 0 and len its length. An
 * element that is not named has all else 0, and its number is
 *   24  the groups do not fit together, as brundhal_write_lot has it
 *   23  the label or a group's name is longer than 32 bytes
 *   25  a byte of the label or of the names is not in 32..126
 *   28  element is not below elements
 * tested in this order. */
typedef struct BrundhalName {
    uint32_t number;
    uint32_t grouped;
    size_t start, len;
} BrundhalName;

/* Names an element, counted from 0, of so many elements. It has its name from the
 * last group in the list that stands after no more elements than its number. If
 * there is none, or the name is empty, it bears the label. */
BrundhalName brundhal_name(const uint8_t *label, size_t label_len,
                           const uint8_t *names, size_t names_len,
                           const uint32_t *lengths, size_t lengths_len,
                           const uint32_t *offsets, size_t offsets_len,
                           uint32_t elements, uint32_t element);

/* The length of lent space for a slip: every slip fits. */
#define BRUNDHAL_SLIP_BYTES 262144

/* Prints the slip of a lot file to the front of out, and answers its length. Of an
 * accepted lot of at most 900 elements, inspected at depth 3:
 *   lot LABEL
 *   N NAME w0 w1 w2 w3 w4 w5 w6 w7 w8   an element from 1, its name, its record
 *   tally VALID INVALID UNDECIDED REFUSED
 *   stamp sound                         or faulty, or open
 * and of a refused one the line
 *   refused NUMBER
 * with the reader's number, or 26 for a lot without fault of more than 900 elements.
 * Every line ends in one line feed; there is no 0 byte at the end. An empty name is
 * printed as nothing, with the spaces beside it. The call needs about 340 KiB of
 * stack. */
size_t brundhal_slip(const uint8_t *file, size_t file_len,
                     uint8_t out[BRUNDHAL_SLIP_BYTES]);

/* A number of two words in one: fits is 1 and value the number, or both are 0 for a
 * number that is not from -2^63 to 2^63 - 1. */
typedef struct {
    uint32_t fits;
    int64_t value;
} BrundhalSingle;

/* From a number of one word, and back to one. */
BrundhalNumber brundhal_number_from_i64(int64_t x);
BrundhalSingle brundhal_number_to_i64(BrundhalNumber x);

/* x + y, x - y, x times y, two and four times x, all modulo 2^128: the whole number
 * itself wherever that is from -2^127 to 2^127 - 1; and of several sums, differences
 * and products in a row only the last has to be. The product of two numbers of one word always is. */
BrundhalNumber brundhal_number_add(BrundhalNumber x, BrundhalNumber y);
BrundhalNumber brundhal_number_sub(BrundhalNumber x, BrundhalNumber y);
BrundhalNumber brundhal_number_mul(BrundhalNumber x, BrundhalNumber y);
BrundhalNumber brundhal_number_product(int64_t x, int64_t y);
BrundhalNumber brundhal_number_twice(BrundhalNumber x);
BrundhalNumber brundhal_number_four_times(BrundhalNumber x);

/* The order of x and y, and of x and 0: -1 less, 0 equal, 1 greater; and whether x
 * is at most y, 1 or 0. So bounds of two depths, the lesser depth's times 64 for
 * each level between, are compared without a product that overflows. */
int32_t brundhal_number_compare(BrundhalNumber x, BrundhalNumber y);
int32_t brundhal_number_sign(BrundhalNumber x);
uint32_t brundhal_number_at_most(BrundhalNumber x, BrundhalNumber y);

#ifdef __cplusplus
}
#endif

#endif
