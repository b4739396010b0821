/* The fleets that are lent to a pass or a study, and one of each call over them. */
#ifndef TEST_SURFACE_FLEET_H
#define TEST_SURFACE_FLEET_H

#include <stddef.h>
#include <stdint.h>

/* The lists of a fleet as they are lent. Place 0 of each is a guard, and so are all places past its length;
** there is room for a fleet that is too large.
*/
#define PLACES 72

enum { RATED, RESERVE, STORED, RATING, WEIGHT, REQUESTS, LISTS };

struct lists {
    uint64_t rated[PLACES], reserve[PLACES], stored[PLACES];
    uint32_t rating[PLACES];
    uint16_t weight[PLACES];
    int32_t requests[PLACES];
    size_t length[LISTS];
};

/* The numbers of a pass or a study beside the lists; a study has no mode, and its load is the measure. */
struct numbers {
    uint8_t mode;
    int32_t target;
    uint32_t band;
    uint16_t factor;
    int64_t measure;
    uint32_t budget;
};

/* Units that hold more than their reserve and less than they can, at rest. */
struct lists fleet_of(size_t units);

/* Numbers that are all in range. */
extern const struct numbers plain;

/* The address of a list of which any number of elements is lent; of none it may be NULL. */
#define LENT(lists, name, k, null) ((null) && (lists)->length[k] == 0 ? NULL : (lists)->name + 1)
#define LENT_LISTS(l, null)                                                                                     \
    LENT(l, rated, RATED, null), (l)->length[RATED], LENT(l, reserve, RESERVE, null), (l)->length[RESERVE],     \
        LENT(l, stored, STORED, null), (l)->length[STORED], LENT(l, rating, RATING, null), (l)->length[RATING], \
        LENT(l, weight, WEIGHT, null), (l)->length[WEIGHT], LENT(l, requests, REQUESTS, null),                  \
        (l)->length[REQUESTS]

/* Say on standard error which call was wrong. */
void tell_lists(const char *call, const struct numbers *n, const struct lists *lists);

/* The lists as they must be after the call: as before, but with the new requests where it was accepted. */
int lists_as_expected(const struct lists *after, const struct lists *before, uint32_t number,
    const int32_t *requests);

/* One pass, made twice over different memory: the number, what it stores, and everything else as it was. */
void check_pass(const struct numbers *n, const struct lists *before, uint32_t number, int64_t need,
    uint8_t changed, const int32_t *requests);

/* The same for a study. */
void check_settle(const struct numbers *n, const struct lists *before, uint32_t number, uint8_t settled,
    uint32_t passes, const int32_t *requests);

#endif
