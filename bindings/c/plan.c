/* Plans the job in the file that is named, and prints what routeplan would; then checks that the other two calls agree with it.
 * usage: plan JOB */
#include "ferruleslate.h"

#include <inttypes.h>
#include <stdio.h>
#include <string.h>

int main(int count, char **words)
{
    /* one byte more than the longest job, so that a longer file is seen to be too long */
    static uint8_t job[FERRULESLATE_MOST_JOB + 1];
    static uint8_t text[FERRULESLATE_MOST_TEXT];
    static uint8_t bytes[FERRULESLATE_MOST_TREE_BYTES];

    FILE *file = count == 2 ? fopen(words[1], "rb") : NULL;
    if (file == NULL) {
        fprintf(stderr, "usage: plan JOB\n");
        return 2;
    }
    size_t length = fread(job, 1, sizeof job, file);
    fclose(file);

    int64_t wrote = ferruleslate_plan(job, length, text, sizeof text);
    if (wrote < 0) {
        fprintf(stderr, "refused %" PRId64 "\n", -wrote);
        return 1;
    }
    fwrite(text, 1, (size_t)wrote, stdout);

    int32_t allowed = 0;
    uint32_t farthest = 0, total = 0, worst = 0;
    int64_t status = ferruleslate_figures(job, length, &allowed, &farthest, &total, &worst);
    int64_t size = ferruleslate_tree_bytes(job, length, bytes, sizeof bytes);
    char last[100];
    if (status < 0)
        snprintf(last, sizeof last, "refused %" PRId64 "\n", -status);
    else
        snprintf(last, sizeof last, "allowed %" PRId32 " farthest %" PRIu32 " total %" PRIu32 " worst %" PRIu32 "\n", allowed,
                 farthest, total, worst);
    size_t end = strlen(last);
    int agree = (size_t)wrote >= end && memcmp(text + wrote - end, last, end) == 0;
    agree = agree && (status < 0 ? size == status : size == 24 + 16 * (int64_t)bytes[0]);
    if (!agree)
        fprintf(stderr, "the calls do not agree\n");
    return agree ? 0 : 1;
}
