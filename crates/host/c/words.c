/* The header's numbers and words are those of the Rust crate, and no more. refusals.inc is made from the crate's source:
   REFUSAL(the enum's name here, the number, the words). Says which one differs, else nothing. */
#include <stdio.h>
#include <string.h>
#include "nethazel.h"

static const struct {
    unsigned here, number;
    const char *words;
} of_rust[] = {
#define REFUSAL(here, number, words) {here, number, words},
#include "refusals.inc"
};

int main(void)
{
    const size_t count = sizeof of_rust / sizeof of_rust[0];
    const char *unknown = nethazel_words(255);
    int failed = strcmp(unknown, "no refusal has this number") || strcmp(nethazel_words(NETHAZEL_DONE), "done");
    for (size_t n = 0; n < count; n++) {
        const char *words = nethazel_words(of_rust[n].number);
        if (of_rust[n].here == of_rust[n].number && !strcmp(words, of_rust[n].words)) continue;
        printf("%u is \"%s\" here and %u \"%s\" in Rust\n", of_rust[n].here, words, of_rust[n].number, of_rust[n].words);
        failed = 1;
    }
    size_t known = 0;
    for (unsigned number = 1; number < 256; number++) known += strcmp(nethazel_words(number), unknown) != 0;
    if (known != count) failed = 1, printf("%zu refusals here and %zu in Rust\n", known, count);
    return failed;
}
