/* Times the reader on four texts. See bench/run. */
#include <stdint.h>
#include <stdio.h>
#include <string.h>
#include <time.h>

/* crates/timing; a slice passes as a pointer and a length. */
uint64_t read_again(const uint8_t *rule, uint64_t long_, uint32_t times, uint32_t types, uint32_t terms);

static double now(void) {
    struct timespec t;
    clock_gettime(CLOCK_MONOTONIC, &t);
    return t.tv_sec * 1e9 + t.tv_nsec;
}

static void timed(const char *what, const char *rule, size_t n, uint32_t times, uint32_t types, uint32_t terms) {
    double best = 1e18;
    uint64_t made = 0;
    for (int i = 0; i < 7; i++) {
        double from = now();
        made = read_again((const uint8_t *)rule, n, times, types, terms);
        double took = (now() - from) / times;
        if (took < best) best = took;
    }
    printf("%-44s %6zu bytes %5llu rows %12.1f ns\n", what, n, (unsigned long long)(made / times), best);
}

/* A rule of about 16 KB: a chain of sums over the same short rule. */
static size_t chain(char *out, size_t most, const char *part, const char *open, const char *end) {
    size_t n = 0, depth = 0, p = strlen(part), o = strlen(open), e = strlen(end);
    while (n + o + p + 1 + e * (depth + 1) + 1 < most) {
        memcpy(out + n, open, o); n += o;
        memcpy(out + n, part, p); n += p;
        out[n++] = ' ';
        depth++;
    }
    out[n++] = '1';
    for (; depth > 0; depth--) { memcpy(out + n, end, e); n += e; }
    return n;
}

/* Types as deep as the rows allow, each another one, so that each is looked for among all before it. */
static size_t many_types(char *out) {
    size_t n = 0;
    n += sprintf(out + n, "(fail ");
    for (int i = 0; i < 1023; i++) n += sprintf(out + n, "(to ");
    n += sprintf(out + n, "nat");
    for (int i = 0; i < 1023; i++) n += sprintf(out + n, " nat)");
    n += sprintf(out + n, ")");
    return n;
}

/* The costliest text that we know: 1,020 types, each another one, and then the same again. */
static size_t worst(char *out) {
    size_t n = sprintf(out, "(catch");
    for (int k = 0; k < 2; k++) {
        n += sprintf(out + n, "(fail");
        for (int i = 0; i < 1020; i++) n += sprintf(out + n, "(to");
        n += sprintf(out + n, " nat");
        for (int i = 0; i < 1020; i++) n += sprintf(out + n, " nat)");
        n += sprintf(out + n, ")");
    }
    n += sprintf(out + n, ")");
    return n;
}

int main(void) {
    static char big[1 << 16];
    const char *roll = "(ifz (sub 12 (get 7)) (mul (get 7) 35) (mul (get 7) 40))";
    timed("the rolls rule, 64 rows of each", roll, strlen(roll), 200000, 64, 64);
    timed("the same, the most rows (they are cleared)", roll, strlen(roll), 100000, 1024, 2048);
    size_t n = chain(big, 16384, "(mul (get 700000001) 350000007)", "(add  ", "  )");
    timed("a rule of 16 KB", big, n, 2000, 1024, 2048);
    n = many_types(big);
    timed("1,023 types, each other", big, n, 500, 1024, 2048);
    n = worst(big);
    timed("1,020 types, and then all of them again", big, n, 500, 1024, 2048);
    return 0;
}
