/* to_lrat F.cnf F.drat
 *
 * Turns a refutation in the DRAT format, as a text, into one in the LRAT format. `sec-drat --help` tells the words, the statuses and what
 * is refused, and `sec-drat` builds this where a C compiler is; to_lrat.py does the same where there is none. Nobody has to trust what it
 * prints: `sec lrat` checks it.
 *
 * Forwards all clauses are added and deleted, up to the first conflict without assumptions. Then it goes back: a clause that is needed has
 * to follow by unit propagation from those before it, and what that took is needed, too. Clauses that are known to be needed are tried
 * first, so that few others become so. */
#include <errno.h>
#include <stdbool.h>
#include <stdint.h>
#include <stdio.h>
#include <stdlib.h>
#include <string.h>

enum { LONGEST = 16777216, MOST_VARIABLES = 1 << 30 };
enum { FAILED = 1, WORDS = 64, DATA = 65, NO_INPUT = 66, NO_MEMORY = 71 };

/* A clause is a number of words in `words`: its size with two flags below it, its number, and its literals: 2 * variable, and one more
 * where it is negated. It is called by where it begins. Two literals stand in front that are watched. */
enum { SIZE, NUMBER, LITERALS };
enum { LIVE = 1, NEEDED = 2, FLAGS = 2 };
enum { NONE = 0 };

/* In the list of a literal: a clause that watches it, twice where it starts, and one more where it has two literals; and another literal
 * of it, which mostly shows at once that the clause is true. */
typedef struct {
    uint32_t other, clause;
} Watch;
typedef struct {
    Watch *items;
    uint32_t count, room;
} List;
typedef struct {
    uint32_t *items;
    size_t count, room;
} Numbers;

/* What was done: a clause added, with how much was known before it, and the reason that it took the place of; or one deleted. */
typedef struct {
    uint32_t clause, known, old;
    bool deletes;
} Step;
typedef struct {
    uint32_t clause;
    size_t begin, end;
} Shown;

static const char *drat_path;
static uint32_t *words;
static size_t words_count, words_room;
static Numbers starts, chains, heads;          /* by number where a clause begins, and which one has the same sum; by sum the last one */
static uint32_t variables;                     /* arrays have room for variables below it */
static int8_t *value;                          /* by literal: 1 true, -1 false */
static uint8_t *seen, *marked;                 /* by variable, by literal */
static uint32_t *reason, *place, *trail;       /* by variable; what is known, in order */
static uint32_t trail_count;
static List *first, *rest;                     /* by literal: watches of clauses that are needed, and of the others */
static Numbers literals, touched, roots, hints; /* hints: those of one clause after the other, each from its end */
static Step *steps;
static size_t steps_count, steps_room;
static Shown *shown;
static size_t shown_count, shown_room;

static void stop(int status, const char *path, const char *why) {
    fprintf(stderr, "sec-drat: %s%s\n", path, why);
    exit(status);
}

/* Room for some items more than there are. */
static void *grown(void *items, size_t *room, size_t wanted, size_t each) {
    if (wanted <= *room) return items;
    size_t larger = *room * 2 > wanted ? *room * 2 : wanted + 16;
    items = realloc(items, larger * each);
    if (!items) stop(NO_MEMORY, "", "there is no memory");
    *room = larger;
    return items;
}

static void push(Numbers *numbers, uint32_t number) {
    numbers->items = grown(numbers->items, &numbers->room, numbers->count + 1, sizeof number);
    numbers->items[numbers->count++] = number;
}

static void watch_by(List *list, uint32_t other, uint32_t clause) {
    if (list->count == list->room) {
        size_t room = list->room;
        list->items = grown(list->items, &room, (size_t)list->count + 4, sizeof(Watch));
        list->room = (uint32_t)room;
    }
    list->items[list->count++] = (Watch){other, clause};
}

/* An array with zeros behind what it had. */
static void *widened(void *items, size_t old, size_t room, size_t each) {
    items = realloc(items, room * each);
    if (!items) stop(NO_MEMORY, "", "there is no memory");
    memset((char *)items + old * each, 0, (room - old) * each);
    return items;
}

/* Makes room for a variable. */
static void make_room(uint32_t variable) {
    if (variable < variables) return;
    size_t old = variables, room = old * 2 > variable ? old * 2 : (size_t)variable + 64;
    value = widened(value, 2 * old, 2 * room, sizeof *value);
    marked = widened(marked, 2 * old, 2 * room, sizeof *marked);
    seen = widened(seen, old, room, sizeof *seen);
    reason = widened(reason, old, room, sizeof *reason);
    place = widened(place, old, room, sizeof *place);
    trail = widened(trail, old, room, sizeof *trail);
    first = widened(first, 2 * old, 2 * room, sizeof *first);
    rest = widened(rest, 2 * old, 2 * room, sizeof *rest);
    variables = (uint32_t)room;
}

/* Reading */

typedef struct {
    const char *path, *format, *at, *end;
    char *bytes;
    size_t line;
} Text;

static Text text_of(const char *path, const char *format) {
    size_t count = 0, room = 0;
    char *bytes = grown(NULL, &room, 1 << 16, 1);
    FILE *file = fopen(path, "rb");
    while (file && !ferror(file) && !feof(file)) {
        bytes = grown(bytes, &room, count + (1 << 16), 1);
        count += fread(bytes + count, 1, room - count, file);
    }
    if (!file || ferror(file)) {
        fprintf(stderr, "sec-drat: %s: %s\n", path, strerror(errno));
        exit(NO_INPUT);
    }
    fclose(file);
    return (Text){path, format, bytes, bytes + count, bytes, 0};
}

static void refuse(const Text *text) {
    fprintf(stderr, "sec-drat: %s line %zu isn't of a %s\n", text->path, text->line, text->format);
    exit(DATA);
}

static bool is_blank(char it) {
    return it == ' ' || it == '\t' || it == '\r';
}

/* Goes to the first word of the next line that is neither empty nor a comment nor a header. */
static bool next_line(Text *text) {
    while (text->at < text->end) {
        text->line++;
        while (text->at < text->end && is_blank(*text->at)) text->at++;
        if (text->at < text->end && *text->at != '\n' && *text->at != 'c' && *text->at != 'p') return true;
        const char *feed = memchr(text->at, '\n', (size_t)(text->end - text->at));
        text->at = feed ? feed + 1 : text->end;
    }
    return false;
}

/* The next number of the line, as a literal, 0 and 1 for 0; false at the line's end, which is passed. */
static bool next_literal(Text *text, uint32_t *literal) {
    while (text->at < text->end && is_blank(*text->at)) text->at++;
    if (text->at == text->end) return false;
    if (*text->at == '\n') {
        text->at++;
        return false;
    }
    uint32_t is_negated = *text->at == '-', variable = 0;
    const char *begin = text->at += is_negated;
    while (text->at < text->end && *text->at >= '0' && *text->at <= '9' && variable < MOST_VARIABLES) {
        variable = 10 * variable + (uint32_t)(*text->at++ - '0');
        if (variable >= MOST_VARIABLES) refuse(text);
    }
    if (text->at == begin || (text->at < text->end && *text->at != '\n' && !is_blank(*text->at))) refuse(text);
    *literal = 2 * variable + is_negated;
    return true;
}

/* One literal more, if it doesn't stand there. */
static void take(uint32_t literal) {
    make_room(literal >> 1);
    if (marked[literal]) return;
    marked[literal] = 1;
    push(&literals, literal);
}

static void forget_marks(void) {
    for (size_t i = 0; i < literals.count; i++) marked[literals.items[i]] = 0;
}

/* What is known */

static void put(uint32_t literal, uint32_t from) {
    value[literal] = 1;
    value[literal ^ 1] = -1;
    reason[literal >> 1] = from;
    place[literal >> 1] = trail_count;
    trail[trail_count++] = literal;
}

/* What is known is as much as it was. */
static void back(uint32_t count) {
    while (trail_count > count) {
        uint32_t literal = trail[--trail_count];
        value[literal] = value[literal ^ 1] = 0;
    }
}

static size_t size_of(uint32_t clause) {
    return words[clause + SIZE] >> FLAGS;
}

/* Where a literal stands that isn't false, behind the two that are watched, or NULL. */
static inline uint32_t *left(uint32_t clause) {
    uint32_t *it = words + clause + LITERALS, *end = it + size_of(clause);
    for (it += 2; it < end; it++)
        if (value[*it] >= 0) return it;
    return NULL;
}

/* Looks at the clauses that watch a literal which has become false: one that is false, or NONE. Clauses stay in these lists whose flags
 * below `mask` are LIVE alone. */
static uint32_t scan(List *lists, uint32_t mask, uint32_t wrong) {
    List *list = &lists[wrong];
    Watch *from = list->items, *to = from, *end = from + list->count;
    uint32_t found = NONE;
    while (from < end && !found) {
        Watch watch = *to++ = *from++;
        if (value[watch.other] > 0) continue;
        uint32_t clause = watch.clause >> 1, *it = words + clause + LITERALS, other = watch.other;
        if ((it[SIZE - LITERALS] & mask) != LIVE) {
            to--;
            continue;
        }
        if (!(watch.clause & 1)) {
            other = it[0] ^ it[1] ^ wrong;
            uint32_t *next = value[other] > 0 ? &other : left(clause);
            if (next && value[*next] > 0) {
                to[-1].other = *next;
                continue;
            }
            if (next) {
                it[0] = other;
                it[1] = *next;
                *next = wrong;
                watch_by(&lists[it[1]], other, watch.clause);
                to--;
                continue;
            }
        }
        if (value[other] < 0) found = clause;
        else put(other, clause);
    }
    memmove(to, from, (size_t)(end - from) * sizeof *from);
    list->count -= (uint32_t)(from - to);
    return found;
}

/* A clause that is false, or NONE, once all that follows is known. Clauses that are needed come first. */
static uint32_t propagate(uint32_t begin) {
    uint32_t before = begin, behind = begin, found = NONE;
    while (!found) {
        if (before < trail_count) found = scan(first, LIVE, trail[before++] ^ 1);
        else if (behind < trail_count) found = scan(rest, LIVE | NEEDED, trail[behind++] ^ 1);
        else break;
    }
    return found;
}

/* How well a literal is watched: one that isn't false best, and of false ones the last that became so. */
static uint64_t worth(uint32_t literal) {
    return value[literal] < 0 ? place[literal >> 1] : UINT64_MAX;
}

static void watch_two(uint32_t clause) {
    size_t size = size_of(clause);
    if (size < 2) return;
    uint32_t *it = words + clause + LITERALS, is_pair = size == 2;
    for (size_t front = 0; front < 2; front++) {
        size_t best = front;
        for (size_t i = front + 1; i < size; i++)
            if (worth(it[i]) > worth(it[best])) best = i;
        uint32_t literal = it[best];
        it[best] = it[front];
        it[front] = literal;
    }
    List *lists = words[clause + SIZE] & NEEDED ? first : rest;
    watch_by(&lists[it[0]], it[1], 2 * clause + is_pair);
    watch_by(&lists[it[1]], it[0], 2 * clause + is_pair);
}

/* All clauses */

/* A sum that doesn't depend on the order. */
static uint32_t sum_of(const uint32_t *items, size_t count) {
    uint64_t sum = count;
    for (size_t i = 0; i < count; i++) {
        uint64_t mixed = (items[i] + 1) * 0x9e3779b97f4a7c15u;
        sum += (mixed ^ mixed >> 32) * 0xd6e8feb86659fd93u;
    }
    return (uint32_t)(sum >> 32) & (uint32_t)(heads.count - 1);
}

/* Twice as many sums as there are clauses at least. */
static void widen_sums(void) {
    if (2 * starts.count < heads.count) return;
    heads.count = heads.count ? 4 * heads.count : 1 << 12;
    heads.items = grown(heads.items, &heads.room, heads.count, sizeof *heads.items);
    memset(heads.items, 0, heads.count * sizeof *heads.items);
    for (size_t number = 1; number < starts.count; number++) {
        uint32_t clause = starts.items[number], sum = sum_of(words + clause + LITERALS, size_of(clause));
        chains.items[number] = heads.items[sum];
        heads.items[sum] = (uint32_t)number;
    }
}

/* A clause of the literals that were read, without watches. */
static uint32_t keep(void) {
    size_t clause = words_count;
    words = grown(words, &words_room, words_count + LITERALS + literals.count, sizeof *words);
    words_count += LITERALS + literals.count;
    if (words_count > UINT32_MAX / 2) stop(NO_MEMORY, "", "there is no memory");
    widen_sums();
    uint32_t sum = sum_of(literals.items, literals.count);
    words[clause + SIZE] = (uint32_t)literals.count << FLAGS | LIVE;
    words[clause + NUMBER] = (uint32_t)starts.count;
    if (literals.count) memcpy(words + clause + LITERALS, literals.items, literals.count * sizeof *words);
    push(&chains, heads.items[sum]);
    heads.items[sum] = (uint32_t)starts.count;
    push(&starts, (uint32_t)clause);
    return (uint32_t)clause;
}

/* Watches a new clause, and finds what follows: one that is false then, or NONE. */
static uint32_t join(uint32_t clause) {
    watch_two(clause);
    size_t size = size_of(clause);
    const uint32_t *it = words + clause + LITERALS;
    if (size == 0 || value[it[0]] < 0) return clause;
    if (size > 1 && value[it[1]] >= 0) return NONE;
    if (value[it[0]] == 0) {
        put(it[0], clause);
        return propagate(trail_count - 1);
    }
    if (size == 1 && size_of(reason[it[0] >> 1]) > 1) reason[it[0] >> 1] = clause;
    return NONE;
}

/* The last live clause of the literals that are marked, or NONE. */
static uint32_t find(void) {
    for (uint32_t number = heads.items[sum_of(literals.items, literals.count)]; number; number = chains.items[number]) {
        uint32_t clause = starts.items[number];
        const uint32_t *it = words + clause + LITERALS, *end = it + size_of(clause);
        if (!(words[clause + SIZE] & LIVE) || size_of(clause) != literals.count) continue;
        while (it < end && marked[*it]) it++;
        if (it == end) return clause;
    }
    return NONE;
}

/* Whether something is known by a clause. */
static bool is_reason(uint32_t clause) {
    const uint32_t *it = words + clause + LITERALS, *end = it + size_of(clause);
    while (it < end && !(value[*it] > 0 && reason[*it >> 1] == clause)) it++;
    return it < end;
}

/* Forwards */

/* Reads the clauses: one that is false, or NONE. */
static uint32_t read_clauses(Text *text) {
    uint32_t literal, found = NONE;
    while (next_line(text)) {
        while (next_literal(text, &literal)) {
            if (literal > 1) {
                take(literal);
                continue;
            }
            forget_marks();
            uint32_t clause = keep();
            if (!found) found = join(clause);
            literals.count = 0;
        }
    }
    forget_marks();
    return found;
}

/* Reads the next step into `literals`, which are marked: whether there is one, and whether it deletes. */
static bool read_step(Text *text, bool *deletes) {
    uint32_t literal = 2;
    literals.count = 0;
    if (!next_line(text)) return false;
    *deletes = *text->at == 'd';
    text->at += *deletes;
    if (*deletes && text->at < text->end && !is_blank(*text->at)) refuse(text);
    while (literal > 1 && next_literal(text, &literal))
        if (literal > 1) take(literal);
    if (literal > 1 || next_literal(text, &literal)) refuse(text);
    return true;
}

/* Adds and deletes as the text says, up to the first conflict: the clause that is false. */
static uint32_t forwards(Text *text) {
    uint32_t found = NONE;
    bool deletes;
    while (!found && read_step(text, &deletes)) {
        Step step = {deletes ? find() : NONE, trail_count, NONE, deletes};
        forget_marks();
        if (deletes) {
            if (!step.clause || is_reason(step.clause)) continue;
            words[step.clause + SIZE] &= ~(uint32_t)LIVE;
        } else {
            step.clause = keep();
            if (literals.count == 1) step.old = reason[literals.items[0] >> 1];
            found = join(step.clause);
        }
        steps = grown(steps, &steps_room, steps_count + 1, sizeof step);
        steps[steps_count++] = step;
    }
    if (!found) stop(FAILED, text->path, " leads to no conflict");
    return found;
}

/* Backwards */

/* The other literals of a clause are asked for: those known from before the check are kept, and those of the check stand on the trail. */
static void ask(uint32_t clause, uint32_t base) {
    const uint32_t *it = words + clause + LITERALS, *end = it + size_of(clause);
    for (; it < end; it++) {
        uint32_t variable = *it >> 1;
        if (seen[variable]) continue;
        seen[variable] = 1;
        push(&touched, variable);
        if (place[variable] < base) push(&roots, variable);
    }
}

static int by_place(const void *left, const void *right) {
    uint32_t one = place[*(const uint32_t *)left], other = place[*(const uint32_t *)right];
    return one > other ? -1 : one < other;
}

/* The clauses that lead to one that is false, from this one back to the first that forces something. */
static void explain(uint32_t conflict, uint32_t base) {
    push(&hints, conflict);
    ask(conflict, base);
    for (uint32_t i = trail_count; i-- > base;) {
        uint32_t variable = trail[i] >> 1;
        if (!seen[variable] || reason[variable] == NONE) continue;
        push(&hints, reason[variable]);
        ask(reason[variable], base);
    }
    for (size_t i = 0; i < roots.count; i++) ask(reason[roots.items[i]], base);
    if (roots.count) qsort(roots.items, roots.count, sizeof *roots.items, by_place);
    for (size_t i = 0; i < roots.count; i++) push(&hints, reason[roots.items[i]]);
    for (size_t i = 0; i < touched.count; i++) seen[touched.items[i]] = 0;
    touched.count = roots.count = 0;
}

static void need(uint32_t clause) {
    if (words[clause + SIZE] & NEEDED) return;
    words[clause + SIZE] |= NEEDED;
    const uint32_t *it = words + clause + LITERALS;
    if (size_of(clause) < 2) return;
    uint32_t is_pair = size_of(clause) == 2;
    watch_by(&first[it[0]], it[1], 2 * clause + is_pair);
    watch_by(&first[it[1]], it[0], 2 * clause + is_pair);
}

/* What shows a clause which isn't live becomes hints; it is told where unit propagation doesn't. */
static void check(uint32_t clause) {
    uint32_t base = trail_count, conflict = NONE;
    const uint32_t *begin = words + clause + LITERALS, *end = begin + size_of(clause);
    for (const uint32_t *it = begin; it < end; it++) {
        seen[*it >> 1] = 1;
        push(&touched, *it >> 1);
        if (value[*it] == 0) put(*it ^ 1, NONE);
        else if (value[*it] > 0) conflict = reason[*it >> 1];
    }
    if (!conflict) conflict = propagate(base);
    if (!conflict) {
        fprintf(stderr, "sec-drat: %s: ", drat_path);
        for (const uint32_t *it = begin; it < end; it++) fprintf(stderr, "%s%u ", *it & 1 ? "-" : "", *it >> 1);
        fprintf(stderr, "0 isn't shown by unit propagation\n");
        exit(FAILED);
    }
    explain(conflict, base);
    back(base);
}

/* All live clauses are watched anew. */
static void watch_all(void) {
    for (size_t i = 0; i < 2 * (size_t)variables; i++) first[i].count = rest[i].count = 0;
    for (size_t number = 1; number < starts.count; number++)
        if (words[starts.items[number] + SIZE] & LIVE) watch_two(starts.items[number]);
}

/* Keeps the hints from a place on as those of a clause, and needs them. */
static void show(uint32_t clause, size_t begin) {
    for (size_t i = begin; i < hints.count; i++) need(hints.items[i]);
    shown = grown(shown, &shown_room, shown_count + 1, sizeof *shown);
    shown[shown_count++] = (Shown){clause, begin, hints.count};
}

/* How many bytes a number takes, with a blank. */
static size_t width_of(uint32_t number) {
    size_t width = 2;
    while (number /= 10) width++;
    return width;
}

/* How many bytes a line takes at least: the number of an added clause is larger than those of the `given` ones. */
static size_t least_width(const Shown *it, uint32_t given) {
    size_t least = width_of(given) + 4;
    for (size_t i = 0; i < size_of(it->clause); i++) least += width_of(words[it->clause + LITERALS + i] >> 1);
    for (size_t i = it->begin; i < it->end; i++) {
        uint32_t number = words[hints.items[i] + NUMBER];
        least += width_of(number < given ? number : given);
    }
    return least;
}

/* The hints of each added clause that is needed, the last one first. */
static void backwards(uint32_t given) {
    size_t least = 0;
    for (size_t i = steps_count; i-- > 0;) {
        Step step = steps[i];
        if (step.deletes) {
            words[step.clause + SIZE] |= LIVE;
            watch_two(step.clause);
            continue;
        }
        back(step.known);
        if (i + 1 == steps_count) watch_all();
        words[step.clause + SIZE] &= ~(uint32_t)LIVE;
        if (step.old) reason[words[step.clause + LITERALS] >> 1] = step.old;
        if (!(words[step.clause + SIZE] & NEEDED)) continue;
        size_t begin = hints.count;
        check(step.clause);
        show(step.clause, begin);
        least += least_width(&shown[shown_count - 1], given);
        if (least > LONGEST) stop(FAILED, drat_path, " gets too long as LRAT");
    }
}

/* Printing */

static char *printed;
static size_t printed_count, printed_room;

static void print_number(uint32_t number, bool is_negated) {
    char digits[12];
    size_t count = 0;
    do digits[count++] = (char)('0' + number % 10);
    while (number /= 10);
    printed = grown(printed, &printed_room, printed_count + 16, 1);
    if (is_negated) printed[printed_count++] = '-';
    while (count) printed[printed_count++] = digits[--count];
    printed[printed_count++] = ' ';
}

/* A line of the LRAT text. */
static void print_line(const Shown *it, uint32_t number) {
    print_number(number, false);
    for (size_t i = 0; it->clause && i < size_of(it->clause); i++) {
        uint32_t literal = words[it->clause + LITERALS + i];
        print_number(literal >> 1, literal & 1);
    }
    print_number(0, false);
    for (size_t i = it->end; i-- > it->begin;) print_number(words[hints.items[i] + NUMBER], false);
    print_number(0, false);
    printed[printed_count - 1] = '\n';
    if (printed_count > LONGEST) stop(FAILED, drat_path, " gets too long as LRAT");
}

int main(int count, char **given) {
    if (count != 3) stop(WORDS, "", "the words are F.cnf F.drat");
    drat_path = given[2];
    push(&starts, 0);
    push(&chains, 0);
    words = grown(words, &words_room, 1 << 16, sizeof *words);
    words_count = 1;
    widen_sums();
    Text cnf = text_of(given[1], "DIMACS text");
    uint32_t found = read_clauses(&cnf), number = (uint32_t)starts.count;
    free(cnf.bytes);
    if (!found) {
        Text drat = text_of(given[2], "DRAT text; cadical writes one with --no-binary");
        found = forwards(&drat);
        free(drat.bytes);
    }
    explain(found, trail_count);
    show(NONE, 0);
    backwards(number);
    for (size_t i = shown_count; i-- > 0;) {
        if (shown[i].clause) words[shown[i].clause + NUMBER] = number;
        print_line(&shown[i], number++);
    }
    return fwrite(printed, 1, printed_count, stdout) == printed_count && fflush(stdout) == 0 ? 0 : FAILED;
}
