/* The same lemmas, cut and tokenised by a plain loop over bytes. It keeps spans and tokens as vern_lex does: two words a span, and a kind
   beside them for a token. It has no check of its own and no proof. */
#include <stdint.h>
#include <stdio.h>
#include <stdlib.h>
#include <string.h>
#include <time.h>

static const char LEMMA[] = "Lemma both : forall A B : Prop, A /\\ B -> B /\\ A. (* swap *)\nintros A B [a b]. split. - exact b. - exact a. (* done *) Qed.\n";

struct span { uint64_t from, to; };
struct token { struct span span; int kind; };

static int blank(char c) { return c == ' ' || (c >= 9 && c <= 13 && c != 11); }
static int letter(char c) { return (c >= 'a' && c <= 'z') || (c >= 'A' && c <= 'Z') || c == '_'; }
static int digit(char c) { return (c >= '0' && c <= '9') || c == '\''; }

/* Behind the comment that begins at p, or p where it doesn't end. */
static const char *behind(const char *p, const char *end) {
    const char *q = p + 2;
    for (size_t depth = 1; q < end; q++) {
        if (q + 1 < end && q[0] == '(' && q[1] == '*') { depth++; q++; }
        else if (q + 1 < end && q[0] == '*' && q[1] == ')') { q++; if (--depth == 0) return q + 1; }
    }
    return p;
}

static const char *gap(const char *p, const char *end) {
    while (p < end) {
        if (blank(*p)) p++;
        else if (p + 1 < end && p[0] == '(' && p[1] == '*') { const char *q = behind(p, end); if (q == p) return p; p = q; }
        else return p;
    }
    return p;
}

/* The end of the sentence at p, or p where it has none. */
static const char *sentence(const char *p, const char *end) {
    if (*p == '{' || *p == '}') return p + 1;
    if (*p == '-' || *p == '+' || *p == '*') { const char *q = p; while (q < end && *q == *p) q++; return q; }
    for (const char *q = p; q < end;) {
        if (*q == '.' && (q + 1 == end || blank(q[1]))) return q + 1;
        if (q + 1 < end && q[0] == '(' && q[1] == '*') { const char *r = behind(q, end); if (r == q) return p; q = r; }
        else q++;
    }
    return p;
}

static int word(const char *p, size_t n) {
    static const char *const words[] = {"forall", "exists", "Prop", "Set", "True", "False", "as", "in"};
    for (int i = 0; i < 8; i++) if (strlen(words[i]) == n && memcmp(words[i], p, n) == 0) return i + 1;
    return 0;
}

static struct token *found;
static size_t room;

static void keep(size_t n, const char *base, const char *p, const char *q, int kind) {
    if (n == room) { room = room ? room * 2 : 4; found = realloc(found, room * sizeof *found); if (!found) abort(); }
    found[n] = (struct token){{(uint64_t)(p - base), (uint64_t)(q - base)}, kind};
}

static size_t tokens(const char *base, const char *end) {
    size_t n = 0;
    found = NULL; room = 0;
    for (const char *p = gap(base, end); p < end; p = gap(p, end)) {
        const char *q = p + 1;
        int kind = *p;
        if (letter(*p)) { while (q < end && (letter(*q) || digit(*q))) q++; kind = word(p, (size_t)(q - p)); }
        else if (end - p > 2 && memcmp(p, "<->", 3) == 0) q += 2;
        else if (end - p > 1 && (memcmp(p, ":=", 2) == 0 || memcmp(p, "->", 2) == 0 || memcmp(p, "<-", 2) == 0 || memcmp(p, "<>", 2) == 0
                                 || memcmp(p, "/\\", 2) == 0 || memcmp(p, "\\/", 2) == 0)) q++;
        keep(n++, base, p, q, kind);
        p = q;
    }
    free(found);
    return n;
}

static double now(void) { struct timespec t; clock_gettime(CLOCK_PROCESS_CPUTIME_ID, &t); return t.tv_sec * 1e9 + t.tv_nsec; }

static void measure(const char *text, size_t length) {
    double start = now();
    const char *end = text + length;
    struct span *spans = NULL;
    size_t count = 0, spare = 0, all = 0;
    for (const char *p = gap(text, end); p < end; p = gap(p, end)) {
        const char *q = sentence(p, end);
        if (q == p) break;
        if (count == spare) { spare = spare ? spare * 2 : 4; spans = realloc(spans, spare * sizeof *spans); if (!spans) abort(); }
        spans[count++] = (struct span){(uint64_t)(p - text), (uint64_t)(q - text)};
        p = q;
    }
    double cutting = now() - start;
    for (size_t i = 0; i < count; i++) all += tokens(text + spans[i].from, text + spans[i].to);
    double whole = now() - start;
    free(spans);
    printf("%zu bytes, %zu sentences, %zu tokens: cutting %.0f us, in all %.0f us, %.0f ns a sentence\n", length, count, all, cutting / 1e3, whole / 1e3, whole / count);
}

int main(void) {
    for (size_t megabytes = 1; megabytes <= 10; megabytes += 9) {
        size_t one = sizeof LEMMA - 1, times = megabytes * 1000000 / one;
        char *text = malloc(one * times);
        if (!text) abort();
        for (size_t i = 0; i < times; i++) memcpy(text + i * one, LEMMA, one);
        for (int i = 0; i < 3; i++) measure(text, one * times);
        free(text);
    }
    return 0;
}
