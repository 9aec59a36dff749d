/* Prints the version, as the header's numbers and as its text, and the words for each number that has some: tests/c holds them against
   tools/explain/paper.py. */
#include <chaloenpik_words.h>
#include <stdio.h>
#include <string.h>

static void print_words(const char *what, const char *(*words)(uint64_t)) {
    for (uint64_t n = 0; n < 256; n++)
        if (strcmp(words(n), "unknown") != 0) printf("%s %lu %s\n", what, (unsigned long)n, words(n));
}

static const char *refusal(uint64_t n) { return chaloenpik_refusal_text((unsigned)n); }

int main(void) {
    printf("%d.%d.%d %s\n", CHALOENPIK_VERSION_MAJOR, CHALOENPIK_VERSION_MINOR, CHALOENPIK_VERSION_PATCH, CHALOENPIK_VERSION);
    print_words("kind", chaloenpik_kind_text);
    print_words("type", chaloenpik_type_text);
    print_words("field", chaloenpik_field_text);
    print_words("refusal", refusal);
    print_words("fit", chaloenpik_fit_text);
    return 0;
}
