/* Uses the index without tags from C: builds the image of a list, checks it, looks up tags, and shows
 * what a stranger gets and what refusals look like. tools/c-example compiles and runs it. */
#include <stdio.h>
#include <string.h>

#include "tag_index.h"

static uint8_t image[TAG_INDEX_LONGEST_TAGLESS_IMAGE];

/* Builds the image without tags of a list text and prints the answer. */
static uint64_t build(const char *text, size_t room) {
    uint64_t answer = tag_index_tagless_build((const uint8_t *)text, strlen(text), image, room);
    if (tag_index_refused(answer)) {
        printf("build: refusal %u at %u\n", (unsigned)tag_index_refusal_number(answer),
               (unsigned)tag_index_refusal_place(answer));
    } else {
        printf("build: %u bytes\n", (unsigned)answer);
    }
    return answer;
}

static void check(size_t length) {
    uint64_t answer = tag_index_tagless_check(image, length);
    if (tag_index_refused(answer)) {
        printf("check: refusal %u at %u\n", (unsigned)tag_index_refusal_number(answer),
               (unsigned)tag_index_refusal_place(answer));
    } else {
        printf("check: accepted\n");
    }
}

static void look_up(size_t length, uint32_t tag) {
    uint64_t answer = tag_index_tagless_lookup(image, length, tag);
    if (tag_index_refused(answer)) {
        printf("tag %lu: refusal %u at %u\n", (unsigned long)tag,
               (unsigned)tag_index_refusal_number(answer),
               (unsigned)tag_index_refusal_place(answer));
    } else if (answer == TAG_INDEX_UNKNOWN) {
        printf("tag %lu: unknown\n", (unsigned long)tag);
    } else {
        printf("tag %lu: number %u\n", (unsigned long)tag, (unsigned)answer);
    }
}

int main(void) {
    /* B = 2 groups, seed limit L = 9, and the tags 1, 2 and 3. */
    const char *list = "    2    9\n"
                       "         1\n"
                       "         2\n"
                       "         3\n";
    uint64_t answer = build(list, sizeof image);
    if (tag_index_refused(answer) || answer != tag_index_tagless_image_length(2)) {
        return 1;
    }
    size_t length = (size_t)answer;
    fwrite(image, 1, length, stdout);
    check(length);
    for (uint32_t tag = 0; tag <= 3; tag++) {
        look_up(length, tag);
    }
    /* Strangers get numbers of listed tags. */
    look_up(length, 4);
    look_up(length, UINT32_MAX);

    /* A buffer one byte short, a list that is not ascending, tag 0, a group of three that seed 0 serves
     * without a word for it: refused, and the image that stands in the buffer stays. */
    build(list, length - 1);
    build("    1    9\n         5\n         5\n", sizeof image);
    build("    1    9\n         0\n         5\n", sizeof image);
    build("    1    1\n        19\n        24\n        43\n", sizeof image);
    check(length);

    /* A damaged image: the word of group 1, which is line 2, is 4,294,967,296. Group 0 ends where
     * group 1 starts, so tag 2 of group 0 meets that line too. */
    memcpy(image + 42, "4294967296", 10);
    check(length);
    look_up(length, 0);
    look_up(length, 2);
    look_up(length, 3);

    /* Another: group 1 starts behind the last tag. */
    memcpy(image + 42, "         1", 10);
    image[36] = '4';
    check(length);
    look_up(length, 2);
    look_up(length, 3);

    /* An empty group, 0, and an image without any tag. */
    answer = build("    2    9\n         1\n         3\n", sizeof image);
    look_up((size_t)answer, 2);
    answer = build("    1    1\n", sizeof image);
    fwrite(image, 1, (size_t)answer, stdout);
    look_up((size_t)answer, 7);
    return 0;
}
