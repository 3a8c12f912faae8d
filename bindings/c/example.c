/* Shortens the payoff of a file, and prints what became of it; escapes a label and cooks it back. */
#include "mirabellejib.h"

#include <stdio.h>
#include <string.h>

enum { NODES = 256, ENTRIES = 1024, TEXT = 4096, FILE_LEN = 65536 };

static uint8_t file[FILE_LEN];
static uint8_t records[NODES * MIRABELLEJIB_RECORD];
static uint32_t entries[ENTRIES];
static uint8_t text[TEXT];

/* The names that the payoff's surroundings bind. None of them is one of the language's own. */
static const char *const SCOPE[] = {"hub", "spot", "fees", "legs", "desk"};

static uint32_t options_of_scope(void) {
    uint32_t options = MIRABELLEJIB_TEMPLATES | MIRABELLEJIB_POWER;
    for (size_t i = 0; i < sizeof SCOPE / sizeof *SCOPE; i++) {
        options |= mirabellejib_binds((const uint8_t *)SCOPE[i], strlen(SCOPE[i]));
    }
    return options;
}

static size_t read_file(const char *path) {
    FILE *in = fopen(path, "rb");
    if (in == NULL) {
        return 0;
    }
    size_t len = fread(file, 1, sizeof file, in);
    fclose(in);
    return len;
}

static void print_report(const char *word, mirabellejib_report report) {
    printf("%-9s fault %u layer %u node %u, %u rewrites in %u rounds, %u left, root %u, %zu nodes, %zu entries, %zu bytes\n", word,
           report.fault, report.layer, report.node, report.rewrites, report.rounds, report.left, report.root,
           report.nodes, report.entries, report.text);
}

static int cook_back(const char *label) {
    uint8_t raw[64];
    uint8_t cooked[64];
    mirabellejib_written escaped = mirabellejib_escape((const uint8_t *)label, strlen(label), raw, sizeof raw);
    mirabellejib_written back = mirabellejib_cook(raw, escaped.len, cooked, sizeof cooked);
    printf("escaped   %.*s\n", (int)escaped.len, (const char *)raw);
    return back.fault == 0 && back.len == strlen(label) && memcmp(cooked, label, back.len) == 0;
}

int main(int count, char **words) {
    if (count != 2) {
        fprintf(stderr, "shorten which file?\n");
        return 2;
    }
    size_t len = read_file(words[1]);
    print_report("checked", mirabellejib_check(file, len));
    mirabellejib_report report =
        mirabellejib_shorten(file, len, options_of_scope(), records, sizeof records, entries, ENTRIES, text, TEXT);
    print_report("shortened", report);
    print_report("refused", mirabellejib_shorten(file, len - 1, 0, records, 0, entries, 0, text, 0));
    print_report("too small", mirabellejib_shorten(file, len, 0, records, sizeof records, entries, 0, text, TEXT));
    if (!cook_back("PWR `Q1` $45.10")) {
        fprintf(stderr, "the label was not cooked back\n");
        return 1;
    }
    return report.fault == 0 ? 0 : 1;
}
