/* The C boundary of the two-choice tag index: building, by one call or by planning and writing,
 * checking, the strict check, lookup, placing a group and counting its parts under a seed; and the
 * index without tags: building, checking and lookup.
 *
 * The functions stand in libtag_index.a, for x86-64: `tools/staticlib` writes it to
 * target/staticlib/.
 *
 * What a caller owes, and nothing else: each pointer and length is a valid range of memory, the
 * pointer not null even where the length is 0, `word` a cell and `plan` TAG_INDEX_PLAN_CELLS of
 * them; what is written overlaps nothing else; and nothing else writes these ranges and cells during
 * the call. The bytes may be anything, the lengths, the tags, the limit, the seed and the numbers of
 * a plan too. A function reads and writes only inside the ranges given, and its answer depends on
 * nothing but the arguments.
 *
 * Each answer is one 64-bit number. Below 2^32 it is what each function says; from 2^32 on it is a
 * refusal, number × 2^32 + place, to be taken apart by the functions below.
 *
 * A list text is read first, and its refusals come in this order: 5 if it is above 65,527 bytes, 16,
 * and 5 if it has above 4,096 tags. Then come those of building, planning or writing, in the order in
 * which they are named there.
 */
#ifndef TAG_INDEX_H
#define TAG_INDEX_H

#include <stddef.h>
#include <stdint.h>

#ifdef __cplusplus
extern "C" {
#endif

/* The ranges of documents 01 and 02. Tag 0 is nobody's: it is reserved for an unwired point. */
#define TAG_INDEX_LARGEST_LIST 4096u   /* tags of a list, N */
#define TAG_INDEX_LARGEST_GROUPS 512u  /* group count, B */
#define TAG_INDEX_LARGEST_GROUP 32u    /* tags of a group */
#define TAG_INDEX_LARGEST_LIMIT 65536u /* seed limit, L */
#define TAG_INDEX_LONGEST_TEXT 65527u  /* bytes of a list text that is examined */
#define TAG_INDEX_LONGEST_IMAGE 50699u /* bytes of an image: a buffer so long is never too short */
#define TAG_INDEX_LINE 11u             /* bytes of a line, of a list text and of an image */
#define TAG_INDEX_PLAN_CELLS 513u      /* cells of a plan: B, and a seed for each of 512 groups */

/* The same of the index without tags. */
#define TAG_INDEX_LONGEST_TAGLESS_IMAGE 10763u
#define TAG_INDEX_TAGLESS_GROUP_LINE 21u

/* Lookup's answer where the image does not have the tag; without tags, for tag 0 and where the tag's
 * group is empty. */
#define TAG_INDEX_UNKNOWN UINT64_C(4294967295)

/* The numbers of the refusals, and what their place counts, from 0; it is 0 where none is said.
 * 1 and 3 belong to "place of one tag" and never come from these functions. More can come. */
enum tag_index_reason {
    TAG_INDEX_SIZE_OUT_OF_RANGE = 1,
    TAG_INDEX_SEED_OUT_OF_RANGE = 2,         /* group: its seed in the plan is above 65,535; 0 from
                                              * counting parts, for the seed given */
    TAG_INDEX_CHOICE_OUT_OF_RANGE = 3,
    TAG_INDEX_LIMIT_OUT_OF_RANGE = 4,        /* L is not 1 to 65,536 */
    TAG_INDEX_TOO_MANY_TAGS = 5,             /* above 4,096 tags, above 32 from placing and counting
                                              * parts, or a text above 65,527 bytes */
    TAG_INDEX_NOT_ASCENDING = 6,             /* index: this tag is not above the one before */
    TAG_INDEX_NO_SEED = 7,                   /* group: no seed below L serves it; 0 from placing;
                                              * without tags: none has a word for it */
    TAG_INDEX_GROUP_COUNT_OUT_OF_RANGE = 8,  /* B is not 1 to 512 */
    TAG_INDEX_BUFFER_TOO_SHORT = 9,          /* the buffer is shorter than the image */
    TAG_INDEX_GROUP_TOO_LARGE = 10,          /* group: it has more than 32 tags */
    TAG_INDEX_WRONG_LENGTH = 11,             /* the image's length is not what line 0 says */
    TAG_INDEX_MALFORMED_LINE = 12,           /* line of the image */
    TAG_INDEX_FAULTY_GROUP = 13,             /* group: its start or its end does not fit */
    TAG_INDEX_WRONG_SLOT = 14,               /* slot: its tag does not belong there */
    TAG_INDEX_REPEATED_TAG = 15,             /* slot: its tag stands in a lower slot too */
    TAG_INDEX_MALFORMED_LIST = 16,           /* line of the list text */
    TAG_INDEX_UNWIRED_TAG = 17,              /* tag 0, reserved for an unwired point; from checking
                                              * the slot that holds it */
    TAG_INDEX_SEED_DOES_NOT_SERVE = 18,      /* group: no choice sequence fills it under its seed in
                                              * the plan */
    TAG_INDEX_NOT_AS_BUILT = 19              /* group: its seed or slots are not those that building
                                              * gives its tags */
};

/* Builds the image of a list text at the beginning of the buffer `image`: tag_index_plan, and, if it
 * does not refuse, tag_index_write with the same text and its plan.
 *
 * Answers the image's length, 22 to 50,699, or a refusal: the text's, 8, 4, 6, 17, 10, 7 or 9. The
 * bytes behind the image stay as they were; a refusal leaves all of them as they were. */
uint64_t tag_index_build(const uint8_t *text, size_t text_length, uint8_t *image,
                         size_t image_length);

/* Plans the image of a list text: the least seed below L that serves each group.
 *
 * Answers B, 1 to 512: plan[0] becomes B and plan[1 + g] the seed of group g, 0 from group B on. Or a
 * refusal: the text's, 8, 4, 6, 17, 10 or 7; each, the text's too, leaves 0 in all cells of the
 * plan. */
uint64_t tag_index_plan(const uint8_t *text, size_t text_length, uint32_t *plan);

/* Writes the image of a list text's tags under a plan at the beginning of the buffer `image`.
 *
 * The plan is any numbers: B, and the seed of group g in plan[1 + g]; from group B on they are not
 * looked at. The text's own B and L have to be well formed and mean nothing here. Each group has the
 * plan's seed in its line, an empty one too.
 *
 * Answers the image's length, 22 to 50,699, or a refusal: the text's, 8 for the plan's B, 2, 6, 17,
 * 9, 10 or 18. The bytes behind the image stay as they were; a refusal leaves all of them as they
 * were. With the text that was planned, and the plan as it was made, no refusal but 9 comes. */
uint64_t tag_index_write(const uint8_t *text, size_t text_length, const uint32_t *plan,
                         uint8_t *image, size_t image_length);

/* Checks an image of any origin: its length, every line, every group and every slot.
 *
 * Answers 0 if it is accepted, or refusal 11, 12, 17, 13, 14 or 15. */
uint64_t tag_index_check(const uint8_t *image, size_t image_length);

/* Checks strictly whether an image of any origin is as building writes it.
 *
 * Answers 0 if it is accepted, exactly if there are a list, B and L for which tag_index_build writes
 * these bytes: each group has the least seed of all 65,536 that serves it, an empty one 0, and its tags
 * stand by the order of choices (see tag_index_place_group). Or a refusal: those of tag_index_check
 * first, then 19 at the lowest group that has another seed or other slots. */
uint64_t tag_index_strict_check(const uint8_t *image, size_t image_length);

/* Looks up a tag in an image, checked or not.
 *
 * Answers the tag's number, 0 to 4,095; TAG_INDEX_UNKNOWN if the image does not have it; or refusal
 * 11, 12 or 13 if one of the few lines that it reads is at fault. No image has tag 0, and for it
 * line 0 and the length alone are examined. */
uint64_t tag_index_lookup(const uint8_t *image, size_t image_length, uint32_t tag);

/* Places a group by itself: its tags in ascending order, and the seed limit L.
 *
 * Answers the least seed that serves the group, 0 to 65,535, and the cell `word` becomes the choice
 * word: bit i is the choice of the tag with index i, and all 32 bits are used. Of the choices that
 * give each tag a place of its own, those with the fewest second places are taken, and between equals
 * the lowest tag decides, first place before second. Or refusal 4, 5, 6, 17 or 7; it leaves the cell
 * as it was. */
uint64_t tag_index_place_group(const uint32_t *tags, size_t tags_length, uint32_t limit,
                               uint32_t *word);

/* Tests a seed for a group, its tags in ascending order, by the connected parts of its graph: the n
 * places are the points, also those that no tag has, and each of the n tags is an edge between its two
 * places. The seed serves exactly if no part has more edges than points. Then the sequences of choices
 * that give each tag a place of its own are 2 to the power of the number of parts.
 *
 * Answers 2 × the number of parts, plus 1 if the seed serves, 1 to 65; or refusal 2, 5, 6 or 17. The
 * parts are told also where it does not serve. The empty group is served, with no parts. */
uint64_t tag_index_parts(const uint32_t *tags, size_t tags_length, uint32_t seed);

/* The index without tags. Its image has a word for each group in place of the tags: line 0 as in an
 * image with tags, then B group lines of 21 bytes, whatever the number of tags. The listed tags get the
 * numbers 0 to N - 1, each once. A TAG THAT WAS NOT LISTED GETS A NUMBER BELOW N TOO, unless its group
 * is empty: the image cannot tell it from a listed one. */

/* Builds the image without tags of a list text at the beginning of the buffer `image`: for each group
 * the least seed below L under which some word gives its tags different places, and the least such
 * word.
 *
 * Answers the image's length, 32 to 10,763, or a refusal: the text's, 8, 4, 6, 17, 9, 10 or 7. The
 * bytes behind the image stay as they were; a refusal leaves all of them as they were. */
uint64_t tag_index_tagless_build(const uint8_t *text, size_t text_length, uint8_t *image,
                                 size_t image_length);

/* Checks an image without tags of any origin: its length, every line and every group. Any seeds and
 * words are accepted.
 *
 * Answers 0 if it is accepted, or refusal 11, 12 or 13. */
uint64_t tag_index_tagless_check(const uint8_t *image, size_t image_length);

/* Looks up a tag in an image without tags, checked or not.
 *
 * Answers a number, 0 to 4,095, of a listed tag its own; TAG_INDEX_UNKNOWN for tag 0 and for a tag whose
 * group is empty; or refusal 11, 12 or 13 if line 0, the length or one of the two group lines that it
 * reads is at fault. For tag 0 line 0 and the length alone are examined. In a checked image no refusal
 * comes, and every number is below N. */
uint64_t tag_index_tagless_lookup(const uint8_t *image, size_t image_length, uint32_t tag);

/* Whether an answer is a refusal. */
static inline int tag_index_refused(uint64_t answer) { return (answer >> 32) != 0; }

/* A refusal's number, one of enum tag_index_reason; 0 for an answer that is none. */
static inline uint32_t tag_index_refusal_number(uint64_t answer) {
    return (uint32_t)(answer >> 32);
}

/* A refusal's place: a line, index, group or slot, counted from 0. */
static inline uint32_t tag_index_refusal_place(uint64_t answer) {
    return (uint32_t)(answer & UINT64_C(4294967295));
}

/* The length of the image of so many tags in so many groups, both in the ranges above. */
static inline size_t tag_index_image_length(size_t groups, size_t count) {
    return TAG_INDEX_LINE * (1u + groups + count);
}

/* The length of the image without tags of so many groups, in the range above, for any number of
 * tags. */
static inline size_t tag_index_tagless_image_length(size_t groups) {
    return TAG_INDEX_LINE + TAG_INDEX_TAGLESS_GROUP_LINE * groups;
}

#ifdef __cplusplus
}
#endif

#endif
