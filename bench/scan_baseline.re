/* A lexer for the same lexis by re2c, in C. It does the work that the scanner does: a list of tokens with
   their places and values, names and strings copied, and a list of faults with their ranges. */
#include <stdint.h>
#include <stdio.h>
#include <stdlib.h>
#include <string.h>
#include <time.h>

enum kind { NAME, NUMBER, STRING, WORD, SYMBOL };

struct token {
    uint32_t start, end;
    enum kind kind;
    union { int32_t number; struct { unsigned char *bytes; size_t len; } text; } value;
};

struct fault { uint32_t start, end, start_line, start_character, end_line, end_character, code; };

struct scanned { struct token *tokens; size_t count, room; struct fault *faults; size_t fault_count, fault_room; };

struct cursor { uint32_t place, line, character; };

static void *grown(void *list, size_t count, size_t *room, size_t size)
{
    if (count < *room) return list;
    *room = *room ? 2 * *room : 4;
    list = realloc(list, *room * size);
    if (!list) exit(5);
    return list;
}

static struct token *add(struct scanned *s, uint32_t start, uint32_t end, enum kind kind)
{
    s->tokens = grown(s->tokens, s->count, &s->room, sizeof *s->tokens);
    struct token *t = &s->tokens[s->count++];
    t->start = start; t->end = end; t->kind = kind;
    return t;
}

static void add_text(struct scanned *s, uint32_t start, uint32_t end, enum kind kind, const unsigned char *bytes, size_t len)
{
    struct token *t = add(s, start, end, kind);
    t->value.text.bytes = len ? malloc(len) : NULL;
    t->value.text.len = len;
    if (len) memcpy(t->value.text.bytes, bytes, len);
}

static void move(struct cursor *c, const unsigned char *text, uint32_t place)
{
    for (; c->place < place; c->place++) {
        unsigned char byte = text[c->place];
        if (byte == '\n' || (byte == '\r' && text[c->place + 1] != '\n')) { c->line++; c->character = 0; }
        else if (byte < 128 || byte >= 192) c->character += byte >= 240 ? 2 : 1;
    }
}

static void add_fault(struct scanned *s, struct cursor *c, const unsigned char *text, uint32_t start, uint32_t end, uint32_t code)
{
    s->faults = grown(s->faults, s->fault_count, &s->fault_room, sizeof *s->faults);
    struct fault *f = &s->faults[s->fault_count++];
    move(c, text, start);
    struct cursor ahead = *c;
    move(&ahead, text, end);
    *f = (struct fault){ start, end, c->line, c->character, ahead.line, ahead.character, code };
}

static uint64_t value_of(const unsigned char *run, const unsigned char *end, unsigned base)
{
    uint64_t value = 0;
    for (; run < end; run++) {
        value = value * base + (*run <= '9' ? *run - '0' : *run - 'A' + 10);
        if (value > 4294967296u) value = 4294967296u;
    }
    return value;
}

static struct scanned scan(const unsigned char *text, uint32_t len)
{
    struct scanned s = { 0 };
    struct cursor c = { 0 };
    const unsigned char *YYCURSOR = text, *YYMARKER, *limit = text + len;
    if (len >= 3 && memcmp(text, "\xEF\xBB\xBF", 3) == 0) YYCURSOR += 3;
    for (;;) {
        const unsigned char *start = YYCURSOR;
        uint32_t at = start - text;
        #define END ((uint32_t)(YYCURSOR - text))
        /*!re2c
        re2c:yyfill:enable = 0;
        re2c:define:YYCTYPE = "unsigned char";
        blank = [ \t\n\f\r];
        letter = [A-Za-z];
        digit = [0-9];
        name = letter (letter | digit)*;
        run = digit [0-9A-F]*;

        "\x00" {
            if (start >= limit) return s;
            add_fault(&s, &c, text, at, END, 4);
            continue;
        }
        blank+ { continue; }
        "(*" {
            int depth = 1;
            while (depth > 0 && YYCURSOR + 1 < limit) {
                if (YYCURSOR[0] == '(' && YYCURSOR[1] == '*') { depth++; YYCURSOR += 2; }
                else if (YYCURSOR[0] == '*' && YYCURSOR[1] == ')') { depth--; YYCURSOR += 2; }
                else YYCURSOR++;
            }
            if (depth > 0) { add_fault(&s, &c, text, at, at + 2, 5); return s; }
            continue;
        }
        "ARRAY" | "BEGIN" | "BY" | "CASE" | "CONST" | "DIV" | "DO" | "ELSE" | "ELSIF" | "END" | "FALSE" | "FOR"
        | "IF" | "IMPORT" | "IN" | "IS" | "MOD" | "MODULE" | "NIL" | "OF" | "OR" | "POINTER" | "PROCEDURE"
        | "RECORD" | "REPEAT" | "RETURN" | "THEN" | "TO" | "TRUE" | "TYPE" | "UNTIL" | "VAR" | "WHILE" {
            add(&s, at, END, WORD)->value.number = *start;
            continue;
        }
        name { add_text(&s, at, END, NAME, start, YYCURSOR - start); continue; }
        run "H" {
            uint64_t value = value_of(start, YYCURSOR - 1, 16);
            if (value > 4294967295u) add_fault(&s, &c, text, at, END, 8);
            else add(&s, at, END, NUMBER)->value.number = (int32_t)(uint32_t)value;
            continue;
        }
        run "X" {
            uint64_t value = value_of(start, YYCURSOR - 1, 16);
            unsigned char byte = value;
            if (value > 255) add_fault(&s, &c, text, at, END, 8);
            else add_text(&s, at, END, STRING, &byte, 1);
            continue;
        }
        digit+ {
            uint64_t value = value_of(start, YYCURSOR, 10);
            if (value > 2147483647u) add_fault(&s, &c, text, at, END, 8);
            else add(&s, at, END, NUMBER)->value.number = (int32_t)value;
            continue;
        }
        run { add_fault(&s, &c, text, at, END, 7); continue; }
        "\"" [^"\n\r\x00]* "\"" { add_text(&s, at, END, STRING, start + 1, YYCURSOR - start - 2); continue; }
        "\"" [^"\n\r\x00]* { add_fault(&s, &c, text, at, END, 6); continue; }
        ":=" | "<=" | ">=" | ".." | [-+*/~&.,;|()[\]{}^=#<>:] { add(&s, at, END, SYMBOL)->value.number = *start; continue; }
        * {
            while ((*YYCURSOR & 0xC0) == 0x80) YYCURSOR++;
            add_fault(&s, &c, text, at, END, 4);
            continue;
        }
        */
    }
}

static void drop(struct scanned *s)
{
    for (size_t i = 0; i < s->count; i++)
        if (s->tokens[i].kind == NAME || s->tokens[i].kind == STRING) free(s->tokens[i].value.text.bytes);
    free(s->tokens);
    free(s->faults);
}

int main(int argc, char **argv)
{
    if (argc != 3) return 6;
    FILE *file = fopen(argv[1], "rb");
    if (!file) return 3;
    fseek(file, 0, SEEK_END);
    long len = ftell(file);
    rewind(file);
    unsigned char *text = malloc(len + 1);
    if (!text || fread(text, 1, len, file) != (size_t)len) return 3;
    text[len] = 0;
    unsigned long long best = ~0ull;
    size_t tokens = 0, faults = 0;
    for (int round = 0; round < atoi(argv[2]); round++) {
        struct timespec before, after;
        clock_gettime(CLOCK_MONOTONIC, &before);
        struct scanned s = scan(text, len);
        clock_gettime(CLOCK_MONOTONIC, &after);
        unsigned long long taken = (after.tv_sec - before.tv_sec) * 1000000000ull + after.tv_nsec - before.tv_nsec;
        if (taken < best) best = taken;
        tokens = s.count;
        faults = s.fault_count;
        drop(&s);
    }
    printf("%zu %zu %llu\n", tokens, faults, best);
    FILE *status = fopen("/proc/self/status", "r");
    char line[256];
    while (status && fgets(line, sizeof line, status))
        if (strncmp(line, "VmHWM", 5) == 0) fputs(line, stdout);
    return 0;
}
