/* Names of functions: whether their bytes are in range, and which of those that are looked for they are. */
#ifndef PLAIN_NAMES_H
#define PLAIN_NAMES_H

#include "bytes.h"

/* ---- their bytes */

enum { FIRST_LETTER = 33, LAST_LETTER = 126 };

/* Has a high bit where one of eight bytes is not 33 to 126; below the first such byte it has none. */
TEMPLATE uint64_t odd_letters(uint64_t letters)
{
    const uint64_t ones = 0x0101010101010101u, high = 0x80 * ones;
    return (letters | (letters + ones) | ~((letters | high) - FIRST_LETTER * ones)) & high;
}

TEMPLATE int is_letter(uint8_t byte)
{
    return (uint8_t)(byte - FIRST_LETTER) <= LAST_LETTER - FIRST_LETTER;
}

/* Whether the 1 to 32 bytes of a name are in range; all of them stand before the frame's end. */
TEMPLATE int is_good_name(const uint8_t *name, uint32_t length, const uint8_t *end)
{
    uint32_t i, good = 1;
    if (length >= 8) {
        uint64_t odd = odd_letters(eight(name)) | odd_letters(eight(name + length - 8));
        if (length > 16) {
            odd |= odd_letters(eight(name + 8)) | odd_letters(eight(name + length - 16));
        }
        return odd == 0;
    }
    if (end - name >= 8) {
        return odd_letters(eight(name)) << (64 - 8 * length) == 0;
    }
    for (i = 0; i < length; i++) {
        good &= (uint32_t)is_letter(name[i]);
    }
    return (int)good;
}

/* Of a name that runs over the frame's end: a byte out of range comes first, if there is one. */
ONCE int cut_name_refusal(const uint8_t *name, const uint8_t *end)
{
    for (; name < end; name++) {
        if (!is_letter(*name)) {
            return 4;
        }
    }
    return 3;
}

/* ---- which they are */

/* In the order of enum spatialjoin_name. */
enum {
    INTERSECTS, CONTAINS, WITHIN, COVERS, COVERED_BY, COVEREDBY, TOUCHES, CROSSES, OVERLAPS, EQUALS, DWITHIN, KNN,
    RS_INTERSECTS, RS_CONTAINS, RS_WITHIN, NO_NAME
};

/* The bits that letters do not count by. Where letter case does not count, an underscore becomes 127, which is in no name. */
static const uint64_t EXACTLY = 0, ANY_CASE = 0x2020202020202020u;

/* Whether a name of 6 letters, or of 8 and more, is this one: by its first and its last letters. */
TEMPLATE int is(const uint8_t *name, const char *wanted, size_t length, uint64_t fold)
{
    if (length < 8) {
        return (four(name) | (uint32_t)fold) == (four(wanted) | (uint32_t)fold) &&
               (four(name + length - 4) | (uint32_t)fold) == (four(wanted + length - 4) | (uint32_t)fold);
    }
    return (eight(name) | fold) == (eight(wanted) | fold) &&
           (eight(name + length - 8) | fold) == (eight(wanted + length - 8) | fold);
}

#define IS(wanted) is(name, wanted, sizeof wanted - 1, fold)

TEMPLATE uint32_t which_name(const uint8_t *name, uint32_t length, const uint64_t fold)
{
    switch (length) {
    case 6: return IS("st_knn") ? KNN : NO_NAME;
    case 9: return IS("st_within") ? WITHIN : IS("st_covers") ? COVERS : IS("st_equals") ? EQUALS : IS("rs_within") ? RS_WITHIN : NO_NAME;
    case 10: return IS("st_touches") ? TOUCHES : IS("st_crosses") ? CROSSES : IS("st_dwithin") ? DWITHIN : NO_NAME;
    case 11: return IS("st_contains") ? CONTAINS : IS("st_overlaps") ? OVERLAPS : IS("rs_contains") ? RS_CONTAINS : NO_NAME;
    case 12: return IS("st_coveredby") ? COVEREDBY : NO_NAME;
    case 13: return IS("st_intersects") ? INTERSECTS : IS("st_covered_by") ? COVERED_BY : IS("rs_intersects") ? RS_INTERSECTS : NO_NAME;
    default: return NO_NAME;
    }
}

TEMPLATE int is_distance_name(const uint8_t *name, uint32_t length, const uint64_t fold)
{
    return length == 11 && IS("st_distance");
}

#undef IS

/* The type of the relation that a name is. */
static const uint8_t relation_type[NO_NAME] = {
    [INTERSECTS] = SPATIALJOIN_RELATION_INTERSECTS,
    [CONTAINS] = SPATIALJOIN_RELATION_CONTAINS,
    [WITHIN] = SPATIALJOIN_RELATION_WITHIN,
    [COVERS] = SPATIALJOIN_RELATION_COVERS,
    [COVERED_BY] = SPATIALJOIN_RELATION_COVERED_BY,
    [COVEREDBY] = SPATIALJOIN_RELATION_COVERED_BY,
    [TOUCHES] = SPATIALJOIN_RELATION_TOUCHES,
    [CROSSES] = SPATIALJOIN_RELATION_CROSSES,
    [OVERLAPS] = SPATIALJOIN_RELATION_OVERLAPS,
    [EQUALS] = SPATIALJOIN_RELATION_EQUALS,
    [RS_INTERSECTS] = SPATIALJOIN_RELATION_INTERSECTS,
    [RS_CONTAINS] = SPATIALJOIN_RELATION_CONTAINS,
    [RS_WITHIN] = SPATIALJOIN_RELATION_WITHIN,
};

/* That of a relation whose geometries change places. */
static const uint8_t inverse[9] = {0, 2, 1, 4, 3, 5, 6, 7, 8};

/* How many arguments a conjunct of this name needs, so as not to be refused. */
TEMPLATE uint32_t arguments_needed(uint32_t name)
{
    return name == DWITHIN ? 3 : name == KNN || name == NO_NAME ? 0 : 2;
}

#endif
