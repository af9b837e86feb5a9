/* Every call of baker.h with its answers and refusals; C99, and C++ too. It prints nothing but what is wrong. */
#include "baker.h"

#include <math.h>
#include <stdio.h>
#include <stdlib.h>
#include <string.h>

#define COUNT(list) (sizeof(list) / sizeof(*(list)))

static int wrong;

static void differs(int line, const char *said)
{
    fprintf(stderr, "answers.c: line %d: not so: %s\n", line, said);
    wrong = 1;
}

#define IS(said) ((said) ? (void)0 : differs(__LINE__, #said))

/* A good answer has this value, whatever bit 32 says. */
static int good(uint64_t answer, uint32_t value)
{
    return !BAKER_REFUSED(answer) && BAKER_VALUE(answer) == value;
}

static int refused(uint64_t answer, unsigned number, unsigned block, unsigned a, unsigned b)
{
    return BAKER_REFUSED(answer) && BAKER_NUMBER(answer) == number && BAKER_BLOCK(answer) == block &&
           BAKER_A(answer) == a && BAKER_B(answer) == b;
}

static const int32_t Q[] = {0, 0, 64, 0, 64, 64, 0, 64};
static const int32_t CROSSED[] = {0, 0, 64, 64, 64, 0, 0, 64};
static const int32_t FOLDED[] = {0, 0, 64, 0, 32, 0, 32, 64};
static const int32_t CLOCKWISE[] = {0, 0, 0, 64, 64, 64, 64, 0};
static const int32_t SAME[] = {0, 0, 64, 0, 64, 0, 0, 64};

static void plain_numbers(void)
{
    IS(good(baker_check_run(-64, 32, 16, 16, 0, 0, 8), 0));
    IS(refused(baker_check_run(0, 0, 0, 0, 0, 0, BAKER_MOST_TICKS + 1), BAKER_REFUSAL_REACH, 0, 14, 0));
    IS(good(baker_check_piece(0, 32, 0, 0, 0, Q, COUNT(Q)), 0));
    IS(refused(baker_check_piece(0, 32, 0, 0, 0, Q, 7), BAKER_REFUSAL_CORNERS, 0, 0, 0));
    IS(refused(baker_check_piece(0, 32, 0, -256, 0, Q, COUNT(Q)), BAKER_REFUSAL_REACH, 0, 8, 0));
    IS(refused(baker_check_piece(1, 0, 0, 0, 0, Q, COUNT(Q)), BAKER_REFUSAL_REACH, 0, 4, 0));
    IS(refused(baker_check_piece(0, 32, 0, 0, 0, SAME, COUNT(SAME)), BAKER_REFUSAL_SAME, 0, 1, 0));
    IS(refused(baker_check_piece(0, 32, 0, 0, 0, FOLDED, COUNT(FOLDED)), BAKER_REFUSAL_FOLD, 0, 1, 0));
    IS(refused(baker_check_piece(0, 32, 0, 0, 0, CROSSED, COUNT(CROSSED)), BAKER_REFUSAL_MEET, 0, 0, 2));
    IS(refused(baker_check_piece(0, 32, 0, 0, 0, CLOCKWISE, COUNT(CLOCKWISE)), BAKER_REFUSAL_CLOCKWISE, 0, 0, 0));
    IS(good(baker_place(-1, 32, Q, COUNT(Q)), BAKER_OUTSIDE));
    IS(good(baker_place(32, 32, Q, COUNT(Q)), BAKER_INSIDE));
    IS(good(baker_place(64, 32, Q, COUNT(Q)), BAKER_ON));
    IS(refused(baker_place(0, BAKER_MOST_REACH + 1, Q, COUNT(Q)), BAKER_REFUSAL_REACH, 0, 4, 0));
    IS(good(baker_verdict(-64, 32, 16, 16, 0, 0, 4, 0, 32, 0, 0, 0, Q, COUNT(Q)), 4 * BAKER_TICK_MARKS));
    IS(good(baker_verdict(-64, 32, 16, 16, 0, 0, 3, 0, 32, 0, 0, 0, Q, COUNT(Q)), BAKER_CLEAR));
    IS(good(baker_verdict(-64, 32, 16, 7, 0, 0, 10, 0, 32, 0, 0, 0, Q, COUNT(Q)), 2340));
}

/* What is written may be uninitialised, so the lent memory is as malloc gives it. */
static void blocks(void)
{
    uint8_t *block = (uint8_t *)malloc(BAKER_BLOCK_SIZE);
    int32_t *run = (int32_t *)malloc(BAKER_RUN_NUMBERS * sizeof *run);
    int32_t *piece = (int32_t *)malloc(BAKER_PIECE_NUMBERS * sizeof *piece);
    const int32_t run_numbers[] = {-64, 32, 16, 16, 0, 0, 8}, piece_numbers[] = {0, 32, 1, -2, 3};
    if (!block || !run || !piece) abort();

    IS(refused(baker_write_header(1, block, 511), BAKER_REFUSAL_LENGTH, 0, 0, 0));
    IS(refused(baker_write_header(BAKER_MOST_PIECES + 1, block, BAKER_BLOCK_SIZE), BAKER_REFUSAL_KIND, 0, 5, 0));
    IS(good(baker_write_header(BAKER_MOST_PIECES, block, BAKER_BLOCK_SIZE), 0));
    IS(good(baker_read_header(block, BAKER_BLOCK_SIZE), BAKER_MOST_PIECES));
    block[300] = 1;
    IS(refused(baker_read_header(block, BAKER_BLOCK_SIZE), BAKER_REFUSAL_CHECK, 0, 0, 0));
    memset(block, 0, BAKER_BLOCK_SIZE);
    IS(refused(baker_read_header(block, BAKER_BLOCK_SIZE), BAKER_REFUSAL_KIND, 0, 0, 0));

    IS(good(baker_write_run(-64, 32, 16, 16, 0, 0, 8, block, BAKER_BLOCK_SIZE), 0));
    IS(good(baker_read_run(block, BAKER_BLOCK_SIZE, run, BAKER_RUN_NUMBERS), 0));
    IS(memcmp(run, run_numbers, sizeof run_numbers) == 0);
    IS(refused(baker_read_run(block, BAKER_BLOCK_SIZE, run, BAKER_RUN_NUMBERS - 1), BAKER_REFUSAL_SHORT, 0, 0, 0));

    IS(good(baker_write_piece(0, 32, 1, -2, 3, Q, COUNT(Q), block, BAKER_BLOCK_SIZE), 0));
    IS(good(baker_read_piece(block, BAKER_BLOCK_SIZE, piece, BAKER_PIECE_NUMBERS), 4));
    IS(memcmp(piece, piece_numbers, sizeof piece_numbers) == 0);
    IS(memcmp(piece + 5, Q, sizeof Q) == 0);
    IS(refused(baker_read_piece(block, BAKER_BLOCK_SIZE, piece, 132), BAKER_REFUSAL_SHORT, 0, 0, 0));
    free(block), free(run), free(piece);
}

static void rooms(void)
{
    uint8_t image[3 * BAKER_BLOCK_SIZE];
    uint8_t *second = image + 2 * BAKER_BLOCK_SIZE;
    int32_t numbers[BAKER_PIECE_NUMBERS];
    uint32_t list[3] = {7, 7, 7};
    const uint32_t verdicts[] = {1024, BAKER_CLEAR, 7};
    IS(good(baker_write_header(2, image, BAKER_BLOCK_SIZE), 0));
    IS(good(baker_write_piece(0, 32, 0, 0, 0, Q, COUNT(Q), image + BAKER_BLOCK_SIZE, BAKER_BLOCK_SIZE), 0));
    IS(good(baker_write_piece(0, 32, 16, 0, 0, Q, COUNT(Q), second, BAKER_BLOCK_SIZE), 0));
    IS(good(baker_room_piece(image, sizeof image, 1, numbers, COUNT(numbers)), 4));
    IS(numbers[2] == 16 && memcmp(numbers + 5, Q, sizeof Q) == 0);
    IS(good(baker_room_piece(image, sizeof image, 2, numbers, 0), BAKER_END));
    IS(good(baker_room_verdicts(-64, 32, 16, 16, 0, 0, 8, image, sizeof image, list, COUNT(list)), 2));
    IS(memcmp(list, verdicts, sizeof list) == 0);
    IS(refused(baker_room_verdicts(-64, 32, 16, 16, 0, 0, 8, image, sizeof image, list, 1), BAKER_REFUSAL_SHORT, 0,
               0, 0));
    IS(refused(baker_room_piece(image, 1024, 0, numbers, COUNT(numbers)), BAKER_REFUSAL_LENGTH, 0, 0, 0));
    second[20] ^= 1;
    IS(refused(baker_room_piece(image, sizeof image, 1, numbers, COUNT(numbers)), BAKER_REFUSAL_CHECK, 2, 0, 0));
    IS(memcmp(list, verdicts, sizeof list) == 0);
}

static void books(void)
{
    uint8_t book[4 * BAKER_BLOCK_SIZE], before[4 * BAKER_BLOCK_SIZE];
    uint64_t answer;
    memset(book, 0, sizeof book);
    answer = baker_ask(book, sizeof book, -64, 32, 16, 16, 0, 0, 4, 0, 32, 0, 0, 0, Q, COUNT(Q));
    IS(good(answer, 1024) && !BAKER_REMEMBERED(answer));
    memcpy(before, book, sizeof book);
    answer = baker_ask(book, sizeof book, -64, 32, 16, 16, 0, 0, 4, 0, 32, 0, 0, 0, Q, COUNT(Q));
    IS(good(answer, 1024) && BAKER_REMEMBERED(answer));
    answer = baker_ask(book, sizeof book, -64, 32, 16, 16, 0, 0, 4, 0, 32, 0, 0, 256, Q, COUNT(Q));
    IS(refused(answer, BAKER_REFUSAL_REACH, 0, 10, 0));
    answer = baker_ask(book, 0, -64, 32, 16, 16, 0, 0, 4, 0, 32, 0, 0, 0, Q, COUNT(Q));
    IS(refused(answer, BAKER_REFUSAL_LENGTH, 0, 0, 0));
    IS(memcmp(book, before, sizeof book) == 0);
}

static void exports(void)
{
    const float good_corners[] = {0, 0, 4, 0, 4, 4, 0, 4}, far_corners[] = {0, 0, 4, 0, 4, 2000};
    int32_t grid = 5, list[9] = {7, 7, 7, 7, 7, 7, 7, 7, 7};
    float below = 5;
    IS(good(baker_take(1024, &grid, &below), BAKER_TAKEN_GRID) && grid == 1024 * BAKER_EXPORT_UNIT && below == 5);
    IS(good(baker_take(-0.03125f, &grid, &below), BAKER_TAKEN_OFF_GRID) && below == -0.0625f);
    IS(good(baker_take((float)NAN, &grid, &below), BAKER_TAKEN_NOT_A_NUMBER));
    IS(good(baker_take((float)-INFINITY, &grid, &below), BAKER_TAKEN_OUT_OF_REACH));
    IS(grid == 16384 && below == -0.0625f);
    IS(good(baker_intake(good_corners, COUNT(good_corners), list, COUNT(list)), 0));
    IS(memcmp(list, Q, sizeof Q) == 0 && list[8] == 7);
    IS(refused(baker_intake(far_corners, COUNT(far_corners), list, COUNT(list)), BAKER_REFUSAL_OUT_OF_REACH, 0, 2,
               1));
    IS(memcmp(list, Q, sizeof Q) == 0);
}

static uint64_t obj(const char *text, int32_t *list, size_t list_len)
{
    return baker_obj((const uint8_t *)text, strlen(text), 0, 32, 0, 0, 0, list, list_len);
}

static void files(void)
{
    static uint8_t feeds[BAKER_LONGEST_FILE + 1];
    int32_t list[BAKER_CORNER_NUMBERS];
    IS(good(obj("v 0 9 0\nv 4 9 0\nv 4 9 -4\nv 0 9 -4\nf 1 2 3 4\n", list, COUNT(list)), 4));
    IS(memcmp(list, Q, sizeof Q) == 0);
    IS(refused(obj("# only\nw 1\n", list, COUNT(list)), BAKER_REFUSAL_LINE, 0, 2, 0));
    IS(refused(obj("v 0 0 0\nf 1 2\n", list, COUNT(list)), BAKER_REFUSAL_INDEX, 0, 2, 0));
    IS(refused(obj("", list, COUNT(list)), BAKER_REFUSAL_FACE, 0, 0, 0));
    IS(refused(obj("v 0 0 0\nv 0.01 0 0\nf 1 2\n", list, COUNT(list)), BAKER_REFUSAL_OFF_GRID, 0, 1, 0));
    /* the last line that a file can have, and a file that is too long */
    memset(feeds, '\n', sizeof feeds);
    feeds[BAKER_LONGEST_FILE - 1] = 'x';
    IS(refused(baker_obj(feeds, BAKER_LONGEST_FILE, 0, 32, 0, 0, 0, list, COUNT(list)), BAKER_REFUSAL_LINE, 0,
               BAKER_LONGEST_FILE, 0));
    IS(refused(baker_obj(feeds, sizeof feeds, 0, 32, 0, 0, 0, list, COUNT(list)), BAKER_REFUSAL_LENGTH, 0, 0, 0));
    IS(memcmp(list, Q, sizeof Q) == 0);
}

int main(void)
{
    plain_numbers();
    blocks();
    rooms();
    books();
    exports();
    files();
    return wrong;
}
