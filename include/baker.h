/*
 * The exact shadow baker: its calls for C and C++.
 *
 * The library is target/staticlib/libbaker.a (`tools/build` makes it), for x86-64 Linux. A program is
 * compiled and linked by
 *
 *     cc -Iinclude program.c target/staticlib/libbaker.a
 *
 * It asks for two symbols, memcpy and memset, and for no other library. Every call takes every number, ends,
 * keeps no state and allocates nothing; threads may call at once where none lends what another one lends for
 * writing. The contract of a call stands beside its code in crates/baker/src, and crates/baker/proofs proves
 * that no other answer would meet it. docs/RULES.md has the rules in words, with the layout of each block.
 *
 * Units: grid units, grid units per tick, ticks; a mark is in 1/256 ticks.
 *
 * Lists: a pointer and then the number of elements, not of bytes. Corners are x, y, x, y ...
 *   A pointer is never null, not even where its length is 0, and aligned as its type is in C: int32_t, uint32_t
 *   and float at multiples of 4, bytes anywhere.
 *   What is lent for writing overlaps nothing else that is lent in the same call.
 *   A block or a list that is only written (the parameters `block` of the writers, `numbers`, `list`, `grid`,
 *   `floor` that are not const) may be uninitialised: no answer depends on what it held. Elements that the call
 *   does not write stay as they were. A book is read, and an empty one is all zero.
 *
 * Answers: one uint64_t.
 *   Test BAKER_REFUSED first. A refusal has a value too, 0 where it names no place, which looks like good,
 *   outside, the end and mark 0.
 *   Not refused: bit 63 is clear and the value stands in the low 32 bits, as said at each call
 *   (baker_ask sets bit 32 besides).
 *   Refused: bit 63 is set, bits 48 to 55 have the number, bits 40 to 47 the block, bits 16 to 39 the
 *   place a, bits 0 to 15 the place b. The block is i + 1 where piece block i of a room is refused,
 *   otherwise 0. Places that are not named are 0. Nothing that was lent changes.
 */
#ifndef BAKER_H
#define BAKER_H

#include <stddef.h>
#include <stdint.h>

#ifdef __cplusplus
extern "C" {
#endif

/* 2.0.0 of this header: 10000 * major + 100 * minor + patch. */
#define BAKER_VERSION 20000

/* ---- answers ---- */

#define BAKER_REFUSED(answer) ((int)((uint64_t)(answer) >> 63))

/* Of an answer that is not refused: test BAKER_REFUSED first. */
#define BAKER_VALUE(answer) ((uint32_t)((uint64_t)(answer) & 0xFFFFFFFF))
#define BAKER_REMEMBERED(answer) ((int)((uint64_t)(answer) >> 32 & 1))

/* Of a refused one. */
#define BAKER_NUMBER(answer) ((unsigned)((uint64_t)(answer) >> 48 & 0xFF))
#define BAKER_BLOCK(answer) ((unsigned)((uint64_t)(answer) >> 40 & 0xFF))
#define BAKER_A(answer) ((unsigned)((uint64_t)(answer) >> 16 & 0xFFFFFF))
#define BAKER_B(answer) ((unsigned)((uint64_t)(answer) & 0xFFFF))

/* A verdict that is clear: at no moment of the run does the point touch the piece. */
#define BAKER_CLEAR UINT32_C(0xFFFFFFFF)

/* Values of baker_place. */
#define BAKER_OUTSIDE 0
#define BAKER_INSIDE 1
#define BAKER_ON 2

/* The value of baker_room_piece at or past the piece count. */
#define BAKER_END 0

/* Values of baker_take. */
#define BAKER_TAKEN_GRID 0
#define BAKER_TAKEN_OFF_GRID 1
#define BAKER_TAKEN_NOT_A_NUMBER 2
#define BAKER_TAKEN_OUT_OF_REACH 3

/*
 * Numbers of refusals, each with what it says. Where several bytes, numbers or corners are wrong, the place a is
 * the first of them; of several pairs of edges it is the one with the least a, then with the least b; a is below
 * b. Edge i leaves corner i, and both count from 0.
 */
#define BAKER_REFUSAL_LENGTH 1 /* the length of a room, a book, a block, an input or a file is wrong */
#define BAKER_REFUSAL_CHECK 2 /* the check of a block is wrong */
#define BAKER_REFUSAL_KIND 3 /* byte a is wrong: kind, name, edition, piece count, or unnamed and not zero */
#define BAKER_REFUSAL_REACH 4 /* the number at byte a is out of reach, or the bottom is above the top */
#define BAKER_REFUSAL_CORNERS 5 /* the corners are not 3 to 64, or their list is odd */
#define BAKER_REFUSAL_SAME 6 /* corner a equals the next */
#define BAKER_REFUSAL_FOLD 7 /* the edges fold at corner a */
#define BAKER_REFUSAL_MEET 8 /* edges a and b meet */
#define BAKER_REFUSAL_CLOCKWISE 9 /* the corners run clockwise */
#define BAKER_REFUSAL_SHORT 10 /* the lent list is too short */
/* b is 0 for x, 1 for y */
#define BAKER_REFUSAL_NOT_A_NUMBER 11 /* x or y of corner a is not a number */
#define BAKER_REFUSAL_OUT_OF_REACH 12 /* x or y of corner a is out of reach, below -1024 or above 1024 */
#define BAKER_REFUSAL_OFF_GRID 13 /* x or y of corner a is off the grid, no whole number of sixteenths */
/* a is the line of the file, from 1; 0 where there is no face */
#define BAKER_REFUSAL_LINE 14 /* this is no good `v` or `f` line, and none that is passed over */
#define BAKER_REFUSAL_INDEX 15 /* an index names no `v` above the face */
#define BAKER_REFUSAL_FACE 16 /* a second face, or none */

/* ---- sizes and bounds ---- */

#define BAKER_BLOCK_SIZE 512 /* bytes of a block */
#define BAKER_MOST_PIECES 126 /* of a room: an image has 1 + pieces blocks */
#define BAKER_MOST_SLOTS 128 /* of a book, each a block; at least 1 */
#define BAKER_LONGEST_FILE 65536 /* bytes of an OBJ file */
#define BAKER_LEAST_CORNERS 3
#define BAKER_MOST_CORNERS 64
#define BAKER_RUN_NUMBERS 7 /* of a list that a run is read into */
#define BAKER_PIECE_NUMBERS 133 /* of a list that any piece is read into */
#define BAKER_CORNER_NUMBERS 128 /* of a list that any corners are read into */
#define BAKER_MOST_REACH 16384 /* of positions, corners and heights, either way, in grid units */
#define BAKER_MOST_SPEED 255 /* of velocities, either way, in grid units per tick */
#define BAKER_MOST_TICKS 4096 /* of a run */
#define BAKER_TICK_MARKS 256 /* marks of a tick */
#define BAKER_EXPORT_UNIT 16 /* grid units of an exported unit */

/* ---- plain numbers ---- */

/*
 * Whether a run is good: start x, y, z, velocity vx, vy, vz, length in ticks.
 * Value: 0. Refused: 4, at the offset that the number has in a run block.
 */
uint64_t baker_check_run(int32_t x, int32_t y, int32_t z, int32_t vx, int32_t vy, int32_t vz,
                         uint32_t ticks);

/*
 * Whether a piece is good: its band, its velocity, its corners counterclockwise.
 * Value: 0. Refused: 5, 4 (at the offset of a piece block), 6, 7, 8, 9, in this order.
 */
uint64_t baker_check_piece(int32_t bottom, int32_t top, int32_t vx, int32_t vy, int32_t vz,
                           const int32_t *corners, size_t corners_len);

/*
 * Where the point (x, y) lies against a footprint.
 * Value: BAKER_OUTSIDE, BAKER_INSIDE or BAKER_ON. Refused: 4 at 2 or at 4 for the point, then the
 * footprint's 5, 4, 6, 7, 8, 9.
 */
uint64_t baker_place(int32_t x, int32_t y, const int32_t *corners, size_t corners_len);

/*
 * The verdict of a run (x .. ticks) and a piece (bottom, top, velocity ux, uy, uz, corners).
 * Value: the mark at which contacts begin, or BAKER_CLEAR. Refused: the run as baker_check_run, then the
 * piece as baker_check_piece.
 */
uint64_t baker_verdict(int32_t x, int32_t y, int32_t z, int32_t vx, int32_t vy, int32_t vz,
                       uint32_t ticks, int32_t bottom, int32_t top, int32_t ux, int32_t uy,
                       int32_t uz, const int32_t *corners, size_t corners_len);

/* ---- blocks of 512 bytes ---- */

/*
 * The header of a room of so many pieces, into a block.
 * Value: 0, and the block is written whole. Refused: 1, 3 at 5; the block is as it was.
 */
uint64_t baker_write_header(uint32_t pieces, uint8_t *block, size_t block_len);

/* Value: the piece count of a header. Refused: 1, 2, 3. */
uint64_t baker_read_header(const uint8_t *block, size_t block_len);

/*
 * A run, into a block.
 * Value: 0, and the block is written whole. Refused: 1, then as baker_check_run; the block is as it was.
 */
uint64_t baker_write_run(int32_t x, int32_t y, int32_t z, int32_t vx, int32_t vy, int32_t vz,
                         uint32_t ticks, uint8_t *block, size_t block_len);

/*
 * A run from a block, into a list: x, y, z, vx, vy, vz, ticks; later elements stay.
 * Value: 0. Refused: 1, 2, 3, 4; at last 10 where the list has fewer than BAKER_RUN_NUMBERS elements. The
 * list is then as it was.
 */
uint64_t baker_read_run(const uint8_t *block, size_t block_len, int32_t *numbers,
                        size_t numbers_len);

/*
 * A piece, into a block.
 * Value: 0, and the block is written whole. Refused: 1, then as baker_check_piece; the block is as it
 * was.
 */
uint64_t baker_write_piece(int32_t bottom, int32_t top, int32_t vx, int32_t vy, int32_t vz,
                           const int32_t *corners, size_t corners_len, uint8_t *block,
                           size_t block_len);

/*
 * A piece from a block, into a list: bottom, top, vx, vy, vz, then the corners, 5 + 2 * count numbers;
 * later elements stay.
 * Value: the corner count. Refused: 1, 2, 3, 5, 3, 4, 6, 7, 8, 9; at last 10 where the list has fewer
 * than BAKER_PIECE_NUMBERS elements, whatever the piece. The list is then as it was.
 */
uint64_t baker_read_piece(const uint8_t *block, size_t block_len, int32_t *numbers,
                          size_t numbers_len);

/* ---- rooms: a header and then its pieces, 512 to 65024 bytes ---- */

/*
 * A step of a reader: the piece at a place, pieces from 0, into a list as baker_read_piece fills it.
 * Value: the corner count, or BAKER_END where the place is at or past the piece count: the end needs no
 * list. Refused: 1, the header's 2 and 3, 1 where length and count differ, then that piece's block, at
 * last 10. The list is then as it was. To walk a room, go on at place + 1 after each piece.
 */
uint64_t baker_room_piece(const uint8_t *image, size_t image_len, size_t place, int32_t *numbers,
                          size_t numbers_len);

/*
 * The verdicts of a run on each piece of a room, into a list: for each piece its mark or BAKER_CLEAR;
 * later elements stay.
 * Value: the piece count. Refused: the run as baker_check_run, then the room: length, header, length
 * against count, piece by piece; at last 10 where the list has fewer elements than the room pieces. The
 * list is then as it was.
 */
uint64_t baker_room_verdicts(int32_t x, int32_t y, int32_t z, int32_t vx, int32_t vy, int32_t vz,
                             uint32_t ticks, const uint8_t *image, size_t image_len, uint32_t *list,
                             size_t list_len);

/* ---- the book of remembered verdicts: 1 to 128 slots of 512 bytes; all zero is an empty book ---- */

/*
 * The verdict, remembered in the book: where the book has an entry for the question, its verdict comes
 * back, bit 32 is set and no byte changes; otherwise it is worked out and its home slot is written.
 * It is the verdict that baker_verdict gives where the book began all zero and was written by baker_ask
 * alone. In any other book a sound entry is answered as it stands, be it true or not.
 * Value: the mark, or BAKER_CLEAR. Refused: 1 for the book's length, then as baker_verdict; the book is
 * then as it was.
 */
uint64_t baker_ask(uint8_t *book, size_t book_len, int32_t x, int32_t y, int32_t z, int32_t vx,
                   int32_t vy, int32_t vz, uint32_t ticks, int32_t bottom, int32_t top, int32_t ux,
                   int32_t uy, int32_t uz, const int32_t *corners, size_t corners_len);

/* ---- exported numbers: binary32, one unit is 16 grid units, from -1024 to 1024 ---- */

/*
 * One number.
 * Value: BAKER_TAKEN_GRID, and *grid is its grid number; BAKER_TAKEN_OFF_GRID, and *floor is the grid value
 * at or below it, in the export's unit; BAKER_TAKEN_NOT_A_NUMBER; BAKER_TAKEN_OUT_OF_REACH. What is not named
 * stays. Never refused.
 */
uint64_t baker_take(float x, int32_t *grid, float *floor);

/*
 * A footprint x, y, x, y ... into a list of grid numbers; later elements stay.
 * Value: 0. Refused: 5 for an odd list or not 3 to 64 corners, 10 where the list is shorter than the
 * export, then 11, 12, 13 by the first number that cannot be taken. The list is then as it was. The
 * footprint itself is not checked: see baker_check_piece.
 */
uint64_t baker_intake(const float *numbers, size_t numbers_len, int32_t *list, size_t list_len);

/* ---- Wavefront OBJ text: a file of at most 65536 bytes with one face ---- */

/*
 * A line ends with a line feed, and the last one may lack it; one carriage return directly before the
 * feed belongs to the end. Spaces and tabs part the words of a line and mean nothing else; every other
 * byte is part of a word. All lines are counted, from 1.
 *
 *   v X Y Z      three numbers and nothing after them. A number is +, - or no sign, one to nine digits,
 *                and perhaps a point and one to nine digits more.
 *   f C C C ..   the face, of any number of corners. A corner is n, n/t, n//m or n/t/m, each a whole
 *                number of any length with - or no sign. n is the n-th v of the file, from 1, or counts
 *                back from the last v above the face, which is -1; it must stand above the face, and 0
 *                names none. t and m name nothing and can be any number.
 *   passed over  a line that is blank, whose first byte is #, or whose first word is o, g, s, vn, vt,
 *                usemtl or mtllib, whatever follows it.
 */

/*
 * The footprint that is the face of a file, into a list of grid numbers x, y, x, y ..; later elements
 * stay. X is our x and minus Z our y, read exactly, one unit 16 grid units, from -1024 to 1024; Y is not
 * used, nor are the numbers of a v that the face does not name. The caller gives band and velocity, and
 * the piece is checked.
 * Value: the corner count. Refused: 1 for a longer file; then line by line 14 for any other line, 16 for
 * a second face, 15 for an index that names no v above the face; 16 with a = 0 for no face; 12 and 13 by
 * the first number of the face's corners, x before y, that cannot be taken, where a is the corner's
 * number in the face, from 0; then the piece's 5, 4, 6, 7, 8, 9 as baker_check_piece; at last 10 where
 * the list has fewer than 2 * count elements. The list is then as it was.
 * The call takes some 72 KB of stack, most of it a table of the vertices.
 */
uint64_t baker_obj(const uint8_t *file, size_t file_len, int32_t bottom, int32_t top, int32_t vx,
                   int32_t vy, int32_t vz, int32_t *list, size_t list_len);

#ifdef __cplusplus
}
#endif

#endif
