/*
 * bake BOOKS: makes a room, bakes its floor by a run from each patch to the lamp, prints which piece stands in the
 * light of each patch, and asks the same questions of the books in the file BOOKS, which is made where there is none.
 * Called again it finds them there. Compiled and linked, from the root of the repository, by
 *
 *     cc -std=c99 -Iinclude examples/c/bake.c target/staticlib/libbaker.a -o bake
 *
 * rust/baker/examples/bake.rs is the same in Rust.
 */
#include "baker.h"

#include <stdio.h>
#include <stdlib.h>

#define PIECES 3
#define COLUMNS 16
#define ROWS 8
/* A question has one home slot, so there is a book for each row and piece: any rule may choose which one is lent. */
#define BOOK_SIZE (BAKER_MOST_SLOTS * BAKER_BLOCK_SIZE)

struct piece {
    int32_t bottom, top, velocity[3], corners[12];
    size_t numbers;
};

/* A table, a corner sofa, and a train that passes. Corners are x, y, counterclockwise. */
static const struct piece ROOM[PIECES] = {
    {80, 96, {0, 0, 0}, {320, 288, 416, 288, 416, 352, 320, 352}, 8},
    {0, 60, {0, 0, 0}, {704, 96, 896, 96, 896, 352, 832, 352, 832, 160, 704, 160}, 12},
    {0, 48, {12, 0, 0}, {128, 64, 224, 64, 224, 96, 128, 96}, 8},
};
static const int32_t LAMP[3] = {544, 224, 192};

struct run {
    int32_t from[3], velocity[3];
    uint32_t ticks;
};

static uint8_t books[ROWS][PIECES][BOOK_SIZE];

/* The value of an answer; a refusal ends the program. */
static uint32_t value(uint64_t answer)
{
    if (BAKER_REFUSED(answer)) {
        fprintf(stderr, "bake: refused %u block %u at %u %u\n", BAKER_NUMBER(answer), BAKER_BLOCK(answer),
                BAKER_A(answer), BAKER_B(answer));
        exit(1);
    }
    return BAKER_VALUE(answer);
}

/* A room image: a header, then a block for each piece. */
static void make_room(uint8_t *image)
{
    value(baker_write_header(PIECES, image, BAKER_BLOCK_SIZE));
    for (size_t i = 0; i < PIECES; i++) {
        const struct piece *p = &ROOM[i];
        value(baker_write_piece(p->bottom, p->top, p->velocity[0], p->velocity[1], p->velocity[2], p->corners,
                                p->numbers, image + (i + 1) * BAKER_BLOCK_SIZE, BAKER_BLOCK_SIZE));
    }
}

/* From the middle of a patch to the lamp, in 16 ticks. */
static struct run run_of(int column, int row)
{
    struct run run = {{32 + 64 * column, 32 + 64 * row, 0}, {0, 0, 0}, 16};
    for (int axis = 0; axis < 3; axis++) run.velocity[axis] = (LAMP[axis] - run.from[axis]) / 16;
    return run;
}

/* The verdict of one run and one piece through a book; counts those that were remembered. */
static uint32_t ask(uint8_t *book, struct run run, const struct piece *p, int *remembered)
{
    uint64_t answer = baker_ask(book, BOOK_SIZE, run.from[0], run.from[1], run.from[2], run.velocity[0],
                                run.velocity[1], run.velocity[2], run.ticks, p->bottom, p->top, p->velocity[0],
                                p->velocity[1], p->velocity[2], p->corners, p->numbers);
    uint32_t verdict = value(answer);
    *remembered += BAKER_REMEMBERED(answer);
    return verdict;
}

/* The first piece that a list of verdicts has blocked, as a letter. */
static char letter(const uint32_t *verdicts)
{
    for (int i = 0; i < PIECES; i++) {
        if (verdicts[i] != BAKER_CLEAR) return "TSR"[i];
    }
    return '.';
}

/* Bakes the floor; gives how many questions the books remembered. */
static int bake(const uint8_t *image, size_t image_len)
{
    int remembered = 0;
    for (int row = ROWS - 1; row >= 0; row--) {
        for (int column = 0; column < COLUMNS; column++) {
            struct run run = run_of(column, row);
            uint32_t verdicts[BAKER_MOST_PIECES];
            value(baker_room_verdicts(run.from[0], run.from[1], run.from[2], run.velocity[0], run.velocity[1],
                                      run.velocity[2], run.ticks, image, image_len, verdicts, BAKER_MOST_PIECES));
            putchar(letter(verdicts));
            for (int i = 0; i < PIECES; i++) {
                if (ask(books[row][i], run, &ROOM[i], &remembered) != verdicts[i]) {
                    fprintf(stderr, "bake: the books were written in another way than by asking\n");
                    exit(1);
                }
            }
        }
        putchar('\n');
    }
    return remembered;
}

int main(int argc, char **argv)
{
    uint8_t image[(1 + PIECES) * BAKER_BLOCK_SIZE];
    if (argc != 2) return fprintf(stderr, "bake BOOKS\n"), 2;
    FILE *file = fopen(argv[1], "rb");
    if (file && (fread(books, sizeof books, 1, file) != 1 || fgetc(file) != EOF)) return fprintf(stderr, "bake: no books in the file\n"), 1;
    if (file) fclose(file);

    make_room(image);
    printf("remembered %d of %d\n", bake(image, sizeof image), PIECES * COLUMNS * ROWS);
    if (fflush(stdout) != 0 || ferror(stdout)) return perror("bake: standard output"), 1;

    file = fopen(argv[1], "wb");
    if (!file || fwrite(books, sizeof books, 1, file) != 1 || fclose(file) != 0) return perror(argv[1]), 1;
    return 0;
}
