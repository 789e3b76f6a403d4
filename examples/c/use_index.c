/* Uses the tag index from C: builds the image of a list, checks it, looks up tags, plans an image and
 * writes it later, tells an edited image from a built one, places a group, tests seeds for one, and
 * shows what refusals look like. tools/c-example compiles and runs it. */
#include <stdio.h>
#include <string.h>

#include "tag_index.h"

static uint8_t image[TAG_INDEX_LONGEST_IMAGE];
static uint32_t seeds[TAG_INDEX_PLAN_CELLS];

/* Builds the image of a list text and prints the answer. */
static uint64_t build(const char *text, size_t room) {
    uint64_t answer = tag_index_build((const uint8_t *)text, strlen(text), image, room);
    if (tag_index_refused(answer)) {
        printf("build: refusal %u at %u\n", (unsigned)tag_index_refusal_number(answer),
               (unsigned)tag_index_refusal_place(answer));
    } else {
        printf("build: %u bytes\n", (unsigned)answer);
    }
    return answer;
}

/* Plans the image of a list text and prints B with the seeds. */
static void plan(const char *text) {
    uint64_t answer = tag_index_plan((const uint8_t *)text, strlen(text), seeds);
    if (tag_index_refused(answer)) {
        printf("plan: refusal %u at %u, B is %u\n", (unsigned)tag_index_refusal_number(answer),
               (unsigned)tag_index_refusal_place(answer), (unsigned)seeds[0]);
        return;
    }
    printf("plan: %u groups, seeds", (unsigned)answer);
    for (size_t group = 0; group < answer; group++) {
        printf(" %u", (unsigned)seeds[1 + group]);
    }
    printf("\n");
}

/* Writes the image of a list text under the plan and prints the answer. */
static void write_image(const char *text) {
    uint64_t answer =
        tag_index_write((const uint8_t *)text, strlen(text), seeds, image, sizeof image);
    if (tag_index_refused(answer)) {
        printf("write: refusal %u at %u\n", (unsigned)tag_index_refusal_number(answer),
               (unsigned)tag_index_refusal_place(answer));
    } else {
        printf("write: %u bytes\n", (unsigned)answer);
    }
}

static void check(size_t length) {
    uint64_t answer = tag_index_check(image, length);
    if (tag_index_refused(answer)) {
        printf("check: refusal %u at %u\n", (unsigned)tag_index_refusal_number(answer),
               (unsigned)tag_index_refusal_place(answer));
    } else {
        printf("check: accepted\n");
    }
}

/* Says whether the image is as building writes it. */
static void strict_check(size_t length) {
    uint64_t answer = tag_index_strict_check(image, length);
    if (tag_index_refusal_number(answer) == TAG_INDEX_NOT_AS_BUILT) {
        printf("strict check: group %u is not as built\n",
               (unsigned)tag_index_refusal_place(answer));
    } else if (tag_index_refused(answer)) {
        printf("strict check: refusal %u at %u\n", (unsigned)tag_index_refusal_number(answer),
               (unsigned)tag_index_refusal_place(answer));
    } else {
        printf("strict check: as built\n");
    }
}

static void look_up(size_t length, uint32_t tag) {
    uint64_t answer = tag_index_lookup(image, length, tag);
    if (tag_index_refused(answer)) {
        printf("tag %lu: refusal %u at %u\n", (unsigned long)tag,
               (unsigned)tag_index_refusal_number(answer),
               (unsigned)tag_index_refusal_place(answer));
    } else if (answer == TAG_INDEX_UNKNOWN) {
        printf("tag %lu: unknown\n", (unsigned long)tag);
    } else {
        printf("tag %lu: number %u\n", (unsigned long)tag, (unsigned)answer);
    }
}

static void place(const uint32_t *tags, size_t count, uint32_t limit) {
    uint32_t word = 0;
    uint64_t answer = tag_index_place_group(tags, count, limit, &word);
    if (tag_index_refused(answer)) {
        printf("place: refusal %u at %u\n", (unsigned)tag_index_refusal_number(answer),
               (unsigned)tag_index_refusal_place(answer));
        return;
    }
    printf("place: seed %u, choices", (unsigned)answer);
    for (size_t i = 0; i < count; i++) {
        printf(" %u", (unsigned)(word >> i & 1));
    }
    printf("\n");
}

/* Says whether a seed serves a group, and how many parts the group's graph has under it. */
static void count_parts(const uint32_t *tags, size_t count, uint32_t seed) {
    uint64_t answer = tag_index_parts(tags, count, seed);
    if (tag_index_refused(answer)) {
        printf("seed %lu: refusal %u at %u\n", (unsigned long)seed,
               (unsigned)tag_index_refusal_number(answer),
               (unsigned)tag_index_refusal_place(answer));
    } else {
        printf("seed %lu: %s, parts: %u\n", (unsigned long)seed,
               answer % 2 ? "serves" : "does not serve", (unsigned)(answer / 2));
    }
}

int main(void) {
    /* B = 2 groups, seed limit L = 9, and the tags 1, 2 and 3. */
    const char *list = "    2    9\n"
                       "         1\n"
                       "         2\n"
                       "         3\n";
    uint64_t answer = build(list, sizeof image);
    if (tag_index_refused(answer) || answer != tag_index_image_length(2, 3)) {
        return 1;
    }
    size_t length = (size_t)answer;
    fwrite(image, 1, length, stdout);
    check(length);
    for (uint32_t tag = 0; tag <= 4; tag++) {
        look_up(length, tag);
    }
    look_up(length, UINT32_MAX);

    /* A buffer one byte short, a list that is not ascending, a text that is cut, tag 0, which is
     * reserved for an unwired point: refused, and the image that stands in the buffer stays. */
    build(list, length - 1);
    build("    1    9\n         5\n         5\n", sizeof image);
    build("    1    9\n         5", sizeof image);
    build("    1    9\n         0\n         5\n", sizeof image);
    check(length);

    /* A damaged image: slot 2, which is line 5, holds tag 0. */
    image[TAG_INDEX_LINE * 5 + 9] = '0';
    check(length);
    image[TAG_INDEX_LINE * 5 + 9] = '3';

    /* Another: slot 0, which is line 3, no longer holds a figure. */
    image[TAG_INDEX_LINE * 3 + 9] = 'x';
    check(length);
    look_up(length, 0);
    look_up(length, 2);
    look_up(length, 3);

    /* The seeds on one day, the image under them at the shift change. By then tag 9 has been added,
     * and seed 1 does not serve its group, 1, any more: refused, and the image stays. */
    plan(list);
    write_image(list);
    check(length);
    write_image("    2    9\n"
                "         1\n"
                "         2\n"
                "         3\n"
                "         9\n");
    check(length);

    /* An image with another seed for group 0 that serves as well: checking accepts it, and only the
     * strict check tells that building does not write it. A cut one is refused by both alike. */
    strict_check(length);
    seeds[1 + 0] = 7;
    write_image(list);
    check(length);
    strict_check(length);
    strict_check(length - 1);

    /* A plan is any numbers: 65,536 is no seed, and B is 0 after a refused planning. */
    seeds[1 + 0] = 65536;
    write_image(list);
    plan("    2    0\n");
    write_image(list);

    /* Groups placed by themselves. No seed below L = 1 serves the second, and seed 1 does; the
     * third has a tag more than a group holds. */
    const uint32_t first[] = {599, 1193};
    const uint32_t second[] = {1, 3};
    const uint32_t third[TAG_INDEX_LARGEST_GROUP + 1] = {1, 2, 3};
    place(first, 2, 1);
    place(second, 2, 1);
    place(second, 2, 2);
    place(third, TAG_INDEX_LARGEST_GROUP + 1, 1);
    place(third, TAG_INDEX_LARGEST_GROUP, 1);

    /* Seeds tested for the second: under seed 0 both its tags have one place, and the other is a part
     * by itself. 65,536 is no seed, and no tags are served. */
    count_parts(second, 2, 0);
    count_parts(second, 2, 1);
    count_parts(second, 2, 65536);
    count_parts(third, TAG_INDEX_LARGEST_GROUP, 0);
    count_parts(second, 0, 0);
    return 0;
}
