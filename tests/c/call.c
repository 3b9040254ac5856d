/* Runs a service on its stored cases and writes what crates/cases_run writes, but for the place inside 28: call read|judge|localize|pack|unpack <CASES */
#include "cases.h"

static void show(uint64_t number) { printf("%llu", (unsigned long long)number); }

static void show_more(uint64_t number) {
    putchar(' ');
    show(number);
}

/* Writes the answer of a call; of a localized card the bytes too, where they are few. */
static void report(const struct call *c) {
    show(c->answer[0]);
    show_more(c->answer[1]);
    int writes = c->service != 'r' && c->service != 'j';
    if (writes) show_more(c->answer[2]);
    if (c->service != 'u') show_more(sum_of_words(c->table, c->words));
    if (writes) show_more(sum_of_bytes(c->out, c->room));
    if (c->service == 'l' && c->answer[2] && c->answer[2] < 400) {
        putchar(' ');
        fwrite(c->out, 1, c->answer[2], stdout);
    }
    putchar('\n');
}

int main(int count, char **given) {
    if (count != 2) return 2;
    for (const char *line; (line = next_line());) {
        struct call c = call_of(*given[1], line);
        make(&c);
        if ((c.service == 'r' || c.service == 'j') && c.answer[2]) return 1;
        report(&c);
        give_back(&c);
    }
    return 0;
}
