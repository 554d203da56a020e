#include "vex_text_words.h"

#include <string.h>

#include "vex_say.h"

/* Tokens. */

enum kind { END, NAME, NUMBER, REGISTER, MARK, OTHER }; /* END: of the line, or its comment; OTHER: a byte that no token has */

struct token {
    enum kind kind;
    const uint8_t *at;
    size_t length;
};

static int is_digit(uint8_t c) {
    return c >= '0' && c <= '9';
}

static int is_letter(uint8_t c) {
    return (c >= 'a' && c <= 'z') || (c >= 'A' && c <= 'Z') || c == '_';
}

static int in_name(uint8_t c) {
    return is_letter(c) || is_digit(c) || c == '?' || c == '.';
}

/* The first token from `at` on; the line ends at `end`. All that follows a $ without a gap is one register, good or bad. */
static struct token token_at(const uint8_t *at, const uint8_t *end) {
    while (at < end && (*at == ' ' || *at == '\t' || *at == '\r')) at++;
    struct token t = {END, at, 0};
    if (at == end || *at == '#') return t;
    t.kind = is_letter(*at) ? NAME : is_digit(*at) ? NUMBER : *at == '$' ? REGISTER : *at != 0 && strchr(";=,:+-*()[]", *at) ? MARK : OTHER;
    t.length = 1;
    if (t.kind == MARK && *at == ';' && at + 1 < end && at[1] == ';') t.length = 2;
    if (t.kind == NAME || t.kind == REGISTER)
        while (at + t.length < end && in_name(at[t.length])) t.length++;
    if (t.kind == NUMBER)
        while (at + t.length < end && is_digit(at[t.length])) t.length++;
    return t;
}

static int is(struct token t, const char *spelling) {
    return t.length == strlen(spelling) && memcmp(t.at, spelling, t.length) == 0;
}

static int same(struct token t, struct token u) {
    return t.length == u.length && memcmp(t.at, u.at, t.length) == 0;
}

/* c0 to c3; else -1. */
static int cluster_of(struct token t) {
    return t.kind == NAME && t.length == 2 && t.at[0] == 'c' && t.at[1] >= '0' && t.at[1] <= '3' ? t.at[1] - '0' : -1;
}

/* A token as it stands, in quotes; a long one is cut. */
static void say_token(struct text *cause, struct token t) {
    enum { SHOWN = 30 };
    int cut = t.length > SHOWN;
    if (t.kind == END) say(cause, "the end of the line");
    else if (t.kind == OTHER && (*t.at <= ' ' || *t.at > '~')) say(cause, "byte %02X, which no token has", *t.at);
    else say(cause, "'%.*s%s'%s", cut ? SHOWN : (int)t.length, (const char *)t.at, cut ? ".." : "", t.kind == OTHER ? ", which no token has" : "");
}

static void say_with(struct text *cause, const char *before, struct token t, const char *after) {
    say(cause, "%s", before);
    say_token(cause, t);
    say(cause, "%s", after);
}

/* Reading a line. A reader looks for the first cause of one number: of 18 by the grammar alone; of 19 and 20, on a line without 18, with what the
 * labels are. Nothing more is said once a cause was. */

struct reader {
    const uint8_t *end;    /* of the line */
    struct token next;     /* what is to be read */
    const char *after;     /* what was read last, in words */
    unsigned cluster;      /* of the operation */
    uint32_t number;       /* whose cause is looked for */
    int said;              /* it was found */
    struct text *cause;    /* and is written here */
    struct labels *labels; /* for 19 and 20 */
};

static int says(struct reader *r, uint32_t number) {
    if (r->said || r->number != number) return 0;
    return r->said = 1;
}

static void go_on(struct reader *r) {
    r->next = token_at(r->next.at + r->next.length, r->end);
}

static int is_next(const struct reader *r, char mark) {
    return r->next.kind == MARK && r->next.length == 1 && *r->next.at == (uint8_t)mark;
}

static int ends_next(const struct reader *r) {
    return r->next.kind == MARK && r->next.length == 2; /* ;; */
}

static void say_found(struct reader *r) {
    static const uint8_t order_mark[] = {0xEF, 0xBB, 0xBF};
    say(r->cause, ", found ");
    if ((size_t)(r->end - r->next.at) >= sizeof order_mark && memcmp(r->next.at, order_mark, sizeof order_mark) == 0)
        say(r->cause, "a byte order mark, which no token has");
    else
        say_token(r->cause, r->next);
    if (is_next(r, ';')) say(r->cause, "; an instruction ends with ';;'");
}

static void read_mark(struct reader *r, char mark) {
    if (r->said) return;
    if (is_next(r, mark)) {
        go_on(r);
        if (mark == ']') r->after = "the address";
    } else if (says(r, VEX_BAD_TEXT)) {
        say(r->cause, "expected '%c' after %s", mark, r->after);
        say_found(r);
    }
}

/* Registers. What is wrong with one, in words; or NULL. */
static const char *wrong_register(struct token t) {
    size_t digits = 4;
    unsigned number = 0;
    while (digits < t.length && is_digit(t.at[digits])) {
        if (number < 100) number = 10 * number + (unsigned)(t.at[digits] - '0');
        digits++;
    }
    if (t.length < 5 || strchr("rbl", t.at[1]) == NULL || !is_digit(t.at[2]) || t.at[3] != '.' || digits < t.length)
        return "registers are $r0.0 to $r3.63, $b0.0 to $b3.7 and $l0.0";
    if (t.at[1] == 'l') return is(t, "$l0.0") ? NULL : "the link register is $l0.0";
    if (t.at[2] > '3') return "clusters go from 0 to 3";
    if (t.at[4] == '0' && t.length > 5) return "its number has a needless 0";
    if (t.at[1] == 'r' && number > 63) return "general registers go from 0 to 63";
    if (t.at[1] == 'b' && number > 7) return "branch registers go from 0 to 7";
    return NULL;
}

enum { ANY = -1 }; /* cluster */

static void say_wanted(struct reader *r, const char *role, const char *letters, int cluster) {
    const char *kind = letters[1] != '\0' ? "a general or branch register" : *letters == 'r' ? "a general register" : "a branch register";
    say(r->cause, "expected %s, %s", role, *letters == 'l' ? "$l0.0" : kind);
    if (*letters != 'l' && cluster != ANY) say(r->cause, " of cluster %d", cluster);
}

/* A register of one of these letters and of a cluster, the operation's or, of mov, the one it copies from. */
static void read_register(struct reader *r, const char *role, const char *letters, int cluster) {
    if (r->said) return;
    const char *wrong = r->next.kind == REGISTER ? wrong_register(r->next) : NULL;
    char letter = r->next.kind == REGISTER && wrong == NULL ? (char)r->next.at[1] : '?';
    int of = letter == '?' ? ANY : r->next.at[2] - '0';
    if (wrong == NULL && strchr(letters, letter) == NULL) {
        if (!says(r, VEX_BAD_TEXT)) return;
        say_wanted(r, role, letters, cluster);
        say_found(r);
    } else if (wrong != NULL) {
        if (!says(r, VEX_BAD_TEXT)) return;
        say_with(r->cause, "there is no register ", r->next, ": ");
        say(r->cause, "%s", wrong);
    } else if (letter != 'l' && cluster != ANY && of != cluster) {
        if (!says(r, VEX_BAD_TEXT)) return;
        const char *whose = cluster == (int)r->cluster ? "the operation is of" : "the copy is from";
        say_token(r->cause, r->next);
        say(r->cause, " is a register of cluster %d, and %s cluster %d", of, whose, cluster);
    } else {
        r->after = role;
        go_on(r);
    }
}

/* Expressions. A value that leaves the range is said once and goes on as 0, so that 64 bits are enough for every step. */

enum { DEPTH = 16 };
#define LEAST (-(int64_t)2147483648)
#define MOST ((int64_t)2147483647)

static int64_t label_value(struct reader *r, struct token name);

static int leaves_range(struct reader *r, int64_t value) {
    return (value < LEAST || value > MOST) && says(r, VEX_BAD_VALUE);
}

static int64_t step(struct reader *r, int64_t left, char operator_, int64_t right) {
    int64_t value = operator_ == '+' ? left + right : operator_ == '-' ? left - right : left * right;
    if (leaves_range(r, value))
        say(r->cause, "%ld %c %ld is %lld, and values stay within %ld to %ld", (long)left, operator_, (long)right, (long long)value, (long)LEAST,
            (long)MOST);
    return value < LEAST || value > MOST ? 0 : value;
}

static int64_t number_value(struct reader *r, struct token t) {
    int64_t value = 0;
    for (size_t i = 0; i < t.length && value <= MOST; i++) value = 10 * value + (t.at[i] - '0');
    if (leaves_range(r, value)) say_with(r->cause, "the number ", t, " is above 2147483647");
    return value > MOST ? 0 : value;
}

static int begins_expression(const struct reader *r) {
    return r->next.kind == NUMBER || r->next.kind == NAME || is_next(r, '(');
}

static void say_no_expression(struct reader *r) {
    say_found(r);
    if (is_next(r, '-') || is_next(r, '+')) say(r->cause, "; a number has no sign, and minus 5 is 0-5");
}

static int64_t read_expression(struct reader *r, int depth);

static int64_t read_factor(struct reader *r, int depth) {
    struct token t = r->next;
    int64_t value = 0;
    if (r->said) return 0;
    if (!begins_expression(r)) {
        if (!says(r, VEX_BAD_TEXT)) return 0;
        say(r->cause, "expected a number, a label or '(' after %s", r->after);
        say_no_expression(r);
        return 0;
    }
    if (t.kind == MARK && depth == DEPTH) {
        if (says(r, VEX_BAD_TEXT)) say(r->cause, "the expression is nested deeper than %d brackets", DEPTH);
        return 0;
    }
    go_on(r);
    if (t.kind == NUMBER) return number_value(r, t);
    if (t.kind == NAME) return label_value(r, t);
    r->after = "'('";
    value = read_expression(r, depth + 1);
    r->after = "the expression in brackets";
    read_mark(r, ')');
    return value;
}

static int64_t read_term(struct reader *r, int depth) {
    int64_t value = read_factor(r, depth);
    while (!r->said && is_next(r, '*')) {
        go_on(r);
        r->after = "'*'";
        value = step(r, value, '*', read_factor(r, depth));
    }
    return value;
}

static int64_t read_expression(struct reader *r, int depth) {
    int64_t value = read_term(r, depth);
    while (!r->said && (is_next(r, '+') || is_next(r, '-'))) {
        char operator_ = (char)*r->next.at;
        go_on(r);
        r->after = operator_ == '+' ? "'+'" : "'-'";
        value = step(r, value, operator_, read_term(r, depth));
    }
    return value;
}

/* An expression for a field that takes these values. */
static void read_field(struct reader *r, const char *role, const char *field, int64_t least, int64_t most) {
    if (r->said) return;
    if (!begins_expression(r)) {
        if (!says(r, VEX_BAD_TEXT)) return;
        say(r->cause, "expected %s, an expression", role);
        say_no_expression(r);
        return;
    }
    int64_t value = read_expression(r, 0);
    if ((value < least || value > most) && says(r, VEX_BAD_VALUE))
        say(r->cause, "the %s is %ld, and may be %ld to %ld", field, (long)value, (long)least, (long)most);
    r->after = role;
}

/* A register, or an expression that stands for one. */
static void read_source(struct reader *r, const char *role) {
    if (r->next.kind == REGISTER) {
        read_register(r, role, "r", (int)r->cluster);
    } else if (begins_expression(r)) {
        read_field(r, role, "immediate", -1024, 1023);
    } else if (says(r, VEX_BAD_TEXT)) {
        say(r->cause, "expected %s, a general register of cluster %u or an expression", role, r->cluster);
        say_no_expression(r);
    }
}

static void read_target(struct reader *r, const char *field, unsigned bits) {
    read_field(r, "the target", field, 0, ((int64_t)1 << bits) - 1);
}

/* How an operation is written: its operands, a letter each as read_operand has them, and the marks between them. NULL if it is none. */
static const char *form_of(struct token name) {
    static const struct {
        const char *form, *names; /* a blank before and after each name */
    } forms[] = {
        {"t=a,x", " add and andc or orc xor shl shr shru sh1add sh2add sh3add sh4add max maxu min minu mpyll mpyllu mpylh mpylhu mpyhh mpyhhu "},
        {"t=y,b", " sub "},
        {"d=a,x", " cmpeq cmpne cmplt cmple cmpgt cmpge cmpltu cmpleu cmpgtu cmpgeu "},
        {"t=s", " sxtb sxth zxtb zxth "},
        {"u,e=p,b,c", " addcg "},
        {"t=p,b,c", " slct slctf "},
        {"t=o[i]", " ldw ldh ldhu ldb ldbu "},
        {"o[i]=s", " stw sth stb "},
        {"t=f", " copy mov "},
        {"g", " goto "},
        {"q,h", " br brf "},
        {"l=k", " call "},
        {"l", " return "},
        {"", " nop stop "},
    };
    char wanted[12] = " ";
    if (name.kind != NAME || name.length > 7) return NULL;
    memcpy(wanted + 1, name.at, name.length);
    wanted[1 + name.length] = ' ';
    for (size_t i = 0; i < sizeof forms / sizeof forms[0]; i++)
        if (strstr(forms[i].names, wanted) != NULL) return forms[i].form;
    return NULL;
}

/* `source` is the cluster that mov names before it; of copy ANY. */
static void read_operand(struct reader *r, char letter, int source) {
    int own = (int)r->cluster;
    switch (letter) {
    case 't': read_register(r, "the destination", "r", own); break;
    case 'd': read_register(r, "the destination", "rb", own); break;
    case 'u': read_register(r, "the first destination", "r", own); break;
    case 'e': read_register(r, "the second destination", "b", own); break;
    case 's': read_register(r, "the source", "r", own); break;
    case 'f': read_register(r, "the source", "r", source); break;
    case 'a': read_register(r, "the first source", "r", own); break;
    case 'p': read_register(r, "the first source", "b", own); break;
    case 'y': read_source(r, "the first source"); break;
    case 'b': read_register(r, "the second source", "r", own); break;
    case 'x': read_source(r, "the second source"); break;
    case 'c': read_register(r, "the third source", "r", own); break;
    case 'q': read_register(r, "the condition", "b", own); break;
    case 'l': read_register(r, "the link register", "l", ANY); break;
    case 'o': read_field(r, "the offset", "offset", -2048, 2047); break;
    case 'i': read_register(r, "the base", "r", own); break;
    case 'g': read_target(r, "target of goto", 24); break;
    case 'h': read_target(r, "target of br or brf", 21); break;
    case 'k': read_target(r, "target of call", 18); break;
    default: read_mark(r, letter); break;
    }
}

/* What stands where an operation's cluster should. */
static void say_no_cluster(struct reader *r, int labelled) {
    struct token t = r->next;
    size_t digits = 1;
    if (!says(r, VEX_BAD_TEXT)) return;
    while (digits < t.length && is_digit(t.at[digits])) digits++;
    if (t.kind == NAME && is(token_at(t.at + t.length, r->end), ":")) {
        say_with(r->cause, "a line has one label, and ", t, " is a second one");
    } else if (form_of(t) != NULL) {
        say_with(r->cause, "the operation ", t, " lacks its cluster, c0 to c3");
    } else if (t.kind == NAME && t.at[0] == 'c' && t.length > 1 && digits == t.length) {
        say_with(r->cause, "there is no cluster ", t, ": clusters are c0 to c3");
    } else {
        say(r->cause, "expected %sa cluster, c0 to c3%s", labelled ? "" : "a label with its colon or ", t.kind == NAME ? "" : ", or ';;'");
        say_found(r);
    }
}

static void read_operation(struct reader *r, int labelled) {
    int cluster = cluster_of(r->next), source = ANY;
    if (cluster < 0 || is(token_at(r->next.at + r->next.length, r->end), ":")) {
        say_no_cluster(r, labelled);
        return;
    }
    r->cluster = (unsigned)cluster;
    go_on(r);
    if (is_next(r, '=')) {
        go_on(r);
        source = cluster_of(r->next);
        if (source < 0) {
            if (!says(r, VEX_BAD_TEXT)) return;
            say(r->cause, "expected the cluster that mov copies from, c0 to c3");
            say_found(r);
            return;
        }
        go_on(r);
    }
    const char *form = form_of(r->next);
    int is_mov = is(r->next, "mov");
    if (form != NULL && is_mov == (source != ANY)) {
        go_on(r);
        while (*form != '\0' && !r->said) read_operand(r, *form++, source);
    } else if (says(r, VEX_BAD_TEXT)) {
        if (r->next.kind != NAME) {
            say(r->cause, "expected the operation's name");
            say_found(r);
        } else if (form == NULL) {
            say_with(r->cause, "there is no operation ", r->next, "");
        } else if (is_mov) {
            say(r->cause, "mov lacks the cluster that it copies from, as in c1=c0 mov");
        } else {
            say_with(r->cause, "two clusters with '=' stand before mov only, and this is ", r->next, "");
        }
    }
}

/* The text, line by line: what is open, and how many syllables there are. A line with 18 counts for nothing but the label that it begins with. */

struct walk {
    const uint8_t *at, *end; /* what is left of the text */
    struct reader line;      /* the line that was read last, before its operation or ;; */
    size_t number;           /* of that line, from 1 */
    struct token label;      /* that it begins with; of length 0 if with none */
    int bad;                 /* it has 18 */
    size_t first, last;      /* the lines of the open instruction's first and last operation; 0 if none is open */
    unsigned cluster;        /* of the last one */
    uint64_t syllables;
};

static struct walk walk_of(const struct vex_text *given) {
    static const uint8_t none[1] = {0};
    struct walk w;
    memset(&w, 0, sizeof w);
    w.at = given->text_len > 0 ? given->text : none;
    w.end = w.at + given->text_len;
    return w;
}

/* What is wrong with a line among the others: r has read it, and it is as the grammar wants it. */
static void read_among(const struct walk *w, struct reader *r, int operates, int ends) {
    if (operates && w->first > 0 && r->cluster < w->cluster && says(r, VEX_BAD_TEXT))
        say(r->cause, "the operation is of cluster %u, and the one before it in the instruction, on line %lu, of cluster %u: clusters never fall",
            r->cluster, (unsigned long)w->last, w->cluster);
    if (ends && !operates && w->first == 0 && says(r, VEX_BAD_TEXT)) say(r->cause, "';;' ends an instruction without an operation");
}

/* Reads the next line; 0 if there is none. The cause of its 18 goes to `cause`. */
static int next_line(struct walk *w, struct text *cause) {
    if (w->at == w->end) return 0;
    const uint8_t *newline = (const uint8_t *)memchr(w->at, '\n', (size_t)(w->end - w->at));
    struct reader r = {newline != NULL ? newline : w->end, {END, NULL, 0}, "", 0, VEX_BAD_TEXT, 0, cause, NULL};
    struct token none = {END, NULL, 0};
    r.next = token_at(w->at, r.end);
    w->at = newline != NULL ? newline + 1 : w->end;
    w->number++;
    w->label = none;
    if (r.next.kind == NAME && is(token_at(r.next.at + r.next.length, r.end), ":")) {
        w->label = r.next;
        go_on(&r);
        go_on(&r);
        if (w->first > 0 && says(&r, VEX_BAD_TEXT)) {
            say_with(cause, "the label ", w->label, " stands inside the instruction that begins on line ");
            say(cause, "%lu and has no ';;' yet", (unsigned long)w->first);
        }
    }
    w->line = r;
    int operates = r.next.kind != END && !ends_next(&r), ends;
    if (operates) read_operation(&r, w->label.length > 0);
    ends = ends_next(&r);
    if (ends) go_on(&r);
    if (r.next.kind != END && says(&r, VEX_BAD_TEXT)) {
        say(cause, "expected %s", ends ? "the end of the line after ';;'" : "';;' or the end of the line after the operation");
        say_found(&r);
    }
    read_among(w, &r, operates, ends);
    w->bad = r.said;
    if (w->bad) return 1;
    if (operates) {
        unsigned idle = w->first == 0 ? r.cluster : r.cluster > w->cluster ? r.cluster - w->cluster - 1 : 0;
        w->syllables += idle + 1;
        w->cluster = r.cluster;
        w->last = w->number;
        if (w->first == 0) w->first = w->number;
    }
    if (ends) w->first = w->last = 0;
    return 1;
}

/* The walk to a line, whose 18 goes to `cause`; 0 if there is none. */
static int walk_to(struct walk *w, size_t line, struct text *cause) {
    struct text nothing = {NULL, 0, 0};
    while (w->number < line)
        if (!next_line(w, w->number + 1 == line ? cause : &nothing)) return 0;
    return line > 0;
}

/* Labels. Those that a line names are looked up once each, with a walk; LABELS bounds the walks, whatever the line is. */

enum { LABELS = 64 };

struct label {
    struct token name;
    size_t line;   /* that gives it first; 0 if none does */
    int64_t value; /* the syllables of all instructions that begin above that line */
};

struct labels {
    const struct vex_text *given;
    struct label known[LABELS];
    int count;
};

static struct label look_up(const struct vex_text *given, struct token name) {
    struct text nothing = {NULL, 0, 0};
    struct walk w = walk_of(given);
    struct label found = {name, 0, 0};
    for (uint64_t syllables = 0; found.line == 0 && next_line(&w, &nothing); syllables = w.syllables) {
        if (!same(w.label, name)) continue;
        found.line = w.number;
        if (w.bad) /* what is still open began above it */
            while (w.first > 0 && next_line(&w, &nothing)) syllables = w.syllables;
        found.value = syllables > (uint64_t)MOST ? MOST + 1 : (int64_t)syllables;
    }
    return found;
}

static int64_t label_value(struct reader *r, struct token name) {
    struct labels *all = r->labels;
    int i = 0;
    if (all == NULL) return 0;
    while (i < all->count && !same(all->known[i].name, name)) i++;
    if (i == LABELS) {
        r->said = 1;
        say(r->cause, "the line names more than %d labels, and no more of them are looked up", LABELS);
        return 0;
    }
    if (i == all->count) all->known[all->count++] = look_up(all->given, name);
    if (all->known[i].line == 0 && says(r, VEX_BAD_LABEL)) say_with(r->cause, "no line gives the label ", name, "");
    if (leaves_range(r, all->known[i].value)) say_with(r->cause, "the label ", name, " is above 2147483647");
    return all->known[i].value > MOST ? 0 : all->known[i].value;
}

/* The causes. Each says one, or nothing. */

static void bad_length(const struct vex_text *given, struct text *cause) {
    struct text nothing = {NULL, 0, 0};
    struct walk w = walk_of(given);
    unsigned long most = VEX_PROGRAM_BYTES_MAX / VEX_SYLLABLE_BYTES, lent = (unsigned long)(given->program_len / VEX_SYLLABLE_BYTES);
    while (next_line(&w, &nothing)) continue;
    if (w.syllables == 0) say(cause, "the text has no operation");
    else if (w.syllables > most) say(cause, "the text has %llu syllables, and a program has at most %lu", (unsigned long long)w.syllables, most);
    else if (w.syllables > lent) say(cause, "the text's syllables are %llu, and the lent program takes %lu", (unsigned long long)w.syllables, lent);
}

/* 19 and 20 are of a line without 18. */
static void bad_line(const struct vex_text *given, struct vex_answer answer, struct text *cause) {
    struct text nothing = {NULL, 0, 0};
    struct walk w = walk_of(given);
    struct labels labels;
    if (!walk_to(&w, answer.place, answer.number == VEX_BAD_TEXT ? cause : &nothing) || w.bad) return;
    if (w.label.length > 0 && answer.number == VEX_BAD_LABEL) {
        struct label first = look_up(given, w.label);
        if (first.line < w.number) {
            say_with(cause, "the label ", w.label, " is given again; line ");
            say(cause, "%lu gives it first", (unsigned long)first.line);
            return;
        }
    }
    labels.given = given;
    labels.count = 0;
    w.line.number = answer.number;
    w.line.cause = cause;
    w.line.labels = &labels;
    if (cluster_of(w.line.next) >= 0) read_operation(&w.line, 1);
}

size_t vex_text_cause(const struct vex_text *given, struct vex_answer answer, char *cause, size_t size) {
    struct text t = {cause, size, 0};
    if (size > 0) cause[0] = '\0';
    if (answer.number == VEX_BAD_LENGTH && answer.place == 0) bad_length(given, &t);
    if (answer.number >= VEX_BAD_TEXT && answer.number <= VEX_BAD_VALUE) bad_line(given, answer, &t);
    return t.length;
}

size_t vex_text_line(const struct vex_text *given, uint32_t place) {
    struct text nothing = {NULL, 0, 0};
    struct walk w = walk_of(given);
    while (next_line(&w, &nothing))
        if (w.syllables > place) return w.number;
    return 0;
}
