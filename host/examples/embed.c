/* Two yard hosts share one board. The second looked before the first wrote, so its release is refused; it rolls back,
 * looks again, and sees the truck.
 *
 *     cc -Iinclude host/examples/embed.c target/staticlib/liblane_c.a -o embed
 */
#include "lane.h"
#include <inttypes.h>
#include <stdio.h>

/* A board is words that the caller owns. All zeros is a fresh one. */
struct board {
    uint32_t record[LANE_RECORD_WORDS];
    uint32_t cells[64 * LANE_CELL_WORDS];
};

/* One call. The answer has its number in the upper half and its value in the lower. */
static uint64_t call(struct board *b, uint32_t kind, uint32_t place, uint32_t key, uint32_t value) {
    return lane_call(b->record, LANE_RECORD_WORDS, b->cells, sizeof b->cells / sizeof b->cells[0], kind, place, key, value);
}

enum { FIRST = 0, SECOND = 1, SEGMENT = 7, FREE = 0, TRUCK = 12 };

static int story(void) {
    static struct board board;

    call(&board, LANE_START, FIRST, 0, 0);
    call(&board, LANE_UPDATE, FIRST, SEGMENT, TRUCK);
    call(&board, LANE_START, SECOND, 0, 0);
    printf("before the commit the second host reads %" PRIu32 "\n", lane_value(call(&board, LANE_READ, SECOND, SEGMENT, 0)));
    printf("the first host commits: commit number %" PRIu32 "\n", lane_value(call(&board, LANE_COMMIT, FIRST, 0, 0)));
    printf("the second host still reads %" PRIu32 "\n", lane_value(call(&board, LANE_READ, SECOND, SEGMENT, 0)));

    uint64_t answer = call(&board, LANE_UPDATE, SECOND, SEGMENT, FREE);
    if (lane_number(answer) != LANE_CONFLICT) {
        printf("its release was taken: number %" PRIu32 "\n", lane_number(answer));
        return 1;
    }
    printf("its release is refused: CONFLICT\n");
    call(&board, LANE_ROLLBACK, SECOND, 0, 0);

    call(&board, LANE_START, SECOND, 0, 0);
    printf("after a new start it sees truck %" PRIu32 "\n", lane_value(call(&board, LANE_READ, SECOND, SEGMENT, 0)));
    return 0;
}

/* The same board behind a wire: bytes of call records in, bytes of answer records out. */
static int wire(void) {
    static struct board board;
    const uint8_t in[] = {
        0x43, 0x4C, LANE_START,  0, 0, 0, 0,  0, 0, 0, /* start at place 0 */
        0x43, 0x4C, LANE_UPDATE, 0, 7, 0, 12, 0, 0, 0, /* key 7 becomes 12 */
        0x43, 0x4C, LANE_COMMIT, 0, 0, 0, 0,  0, 0, 0, /* commit */
        0x43, 0x4C, LANE_START,                        /* the rest of this one has not come yet */
    };
    uint8_t out[8 * LANE_ANSWER_BYTES];
    struct lane_served served = lane_serve(board.record, LANE_RECORD_WORDS, board.cells, sizeof board.cells / sizeof board.cells[0],
                                           in, sizeof in, out, sizeof out);
    /* Keep the bytes from served.taken on and put what comes next behind them. */
    printf("%" PRIu64 " bytes taken, %" PRIu64 " written, stopped for reason %" PRIu32 "\n", served.taken, served.written, served.why);
    for (uint64_t i = 0; i < served.written; i++) printf("%02X%s", out[i], i % LANE_ANSWER_BYTES == 7 ? "\n" : " ");
    return served.why != LANE_END;
}

int main(void) { return story() || wire(); }
