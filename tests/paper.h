/* Document 01's sizes and limits, as the second program and the comparisons count with them. */
#ifndef PAPER_H
#define PAPER_H

enum {
    MOST_LOTS = 24,
    SLOTS = 16,
    MOST_TIE_WORDS = MOST_LOTS * MOST_LOTS * SLOTS,
    MOST_ROWS = 300,
    MOST_SAVES = 65535,
    BLOCK = 512,
    CONTENT = 504, /* content bytes of a block, from byte 4 on */
    CHECKED = 508, /* bytes of a block that its check covers, and the place of the check */
    MOST_BLOCKS = 18,
};

#endif
