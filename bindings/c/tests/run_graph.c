/* run_graph TABLE < GRAPH: the report of a recorded graph, made through the library's calls. See bindings/tests/README.md. */
#include "baggage.h"
#include "words.h"

enum { INPUT_MAX = 16777216, DIGITS_MAX = 2097152, STEPS_MAX = 100000, PARENTS_MAX = 4096 };
#define BUDGET_MAX 4294967295u

static const char head[] = "baggage table 1\n";

/* A line of the table: its text with the line feed, its name path (none inside the values of a map), and whether it is a bag's. */
typedef struct field {
    word text;
    buffer path;
    int is_bag;
} field;

typedef struct service {
    word name;
    uint32_t form;
    buffer table;
} service;

typedef struct step {
    buffer list; /* in form one, or in form two where an atom needs it */
    size_t service;
} step;

typedef struct graph {
    buffer table;
    field *fields;
    size_t field_count;
    service *services;
    size_t service_count;
    step *steps;
    size_t step_count;
    size_t *shown;
    size_t shown_count;
} graph;

/* Why a line is refused; a status of 3 is reported with the offset. */
typedef struct refusal {
    const char *code;
    int status;
    size_t offset;
} refusal;

static const refusal fine = {NULL, 0, 0};

static refusal refuse(const char *code) {
    refusal why;
    why.code = code;
    why.status = 2;
    why.offset = 0;
    return why;
}

static void clear(buffer *it) {
    free(it->text);
    memset(it, 0, sizeof *it);
}

/* ---- words of a line */

static int is_letter(char c) { return (c >= 'a' && c <= 'z') || (c >= 'A' && c <= 'Z') || c == '_'; }

static int is_name(word it) {
    size_t k;
    for (k = 0; k < it.length; k++)
        if (!is_letter(it.text[k]) && (k == 0 || it.text[k] < '0' || it.text[k] > '9'))
            return 0;
    return it.length > 0;
}

static int is_path(word it) {
    size_t count, k;
    word *names = split(it, '.', &count);
    int all = 1;
    for (k = 0; k < count; k++)
        all = all && is_name(names[k]);
    free(names);
    return all;
}

static int is_number(word it, uint64_t *number) {
    size_t k;
    *number = 0;
    for (k = 0; k < it.length && it.length <= 10; k++) {
        if (it.text[k] < '0' || it.text[k] > '9')
            return 0;
        *number = 10 * *number + (uint64_t)(it.text[k] - '0');
    }
    return it.length > 0 && it.length <= 10 && (it.text[0] != '0' || it.length == 1);
}

static int is_utf8(word it) {
    size_t at = 0;
    while (at < it.length) {
        const unsigned char *bytes = (const unsigned char *)it.text + at;
        unsigned first = bytes[0], low, high;
        size_t more = first >= 0xf0 ? 3 : first >= 0xe0 ? 2 : first >= 0x80 ? 1 : 0, k;
        if (more && (first < 0xc2 || first > 0xf4 || it.length - at <= more))
            return 0;
        low = first == 0xe0 ? 0xa0 : first == 0xf0 ? 0x90 : 0x80;
        high = first == 0xed ? 0x9f : first == 0xf4 ? 0x8f : 0xbf;
        if (more && (bytes[1] < low || bytes[1] > high))
            return 0;
        for (k = 2; k <= more; k++)
            if (bytes[k] >> 6 != 2)
                return 0;
        at += more + 1;
    }
    return 1;
}

static int is_same(word one, word other) { return one.length == other.length && !memcmp(one.text, other.text, one.length); }

static word word_of(const buffer *it) {
    word found;
    found.text = it->text;
    found.length = it->length;
    return found;
}

/* ---- the table */

/* The fields of a table that was checked. */
static void read_fields(graph *it) {
    size_t count, k, inside = 0, depth_count[64];
    word text = word_of(&it->table), *lines = split(text, '\n', &count);
    buffer way = {NULL, 0, 0};
    it->fields = (field *)taken(calloc(count, sizeof *it->fields));
    for (k = 1; k + 1 < count; k++) {
        size_t parts;
        word *words = split(lines[k], ' ', &parts), shape;
        field *here = &it->fields[it->field_count++];
        size_t depth = strtoul(words[0].text, NULL, 10);
        shape.text = words[3].text;
        shape.length = lines[k].length - (size_t)(words[3].text - lines[k].text);
        here->text.text = lines[k].text;
        here->text.length = lines[k].length + 1;
        here->is_bag = is_word(shape, "bag");
        if (inside > depth)
            inside = 0;
        way.length = depth ? depth_count[depth - 1] : 0;
        if (depth)
            add_text(&way, ".");
        add(&way, words[2].text, words[2].length);
        depth_count[depth] = way.length;
        if (!inside)
            add(&here->path, way.text, way.length);
        if (!inside && is_word(words[3], "map"))
            inside = depth + 1;
        free(words);
    }
    free(lines);
    clear(&way);
}

static int is_at_or_below(word path, word top) {
    return path.length >= top.length && !memcmp(path.text, top.text, top.length) && (path.length == top.length || path.text[top.length] == '.');
}

/* Adds the excerpt of the fields at these paths; 0 where one is no field's. */
static int add_excerpt(const graph *it, buffer *to, const word *paths, size_t count) {
    char *kept = (char *)taken(calloc(it->field_count + 1, 1));
    size_t k, j;
    int all_found = 1;
    for (j = 0; j < count; j++) {
        int found = 0, below = 0;
        for (k = 0; k < it->field_count; k++) {
            const field *each = &it->fields[k];
            word path = word_of(&each->path);
            if (path.length) {
                below = is_at_or_below(path, paths[j]); /* what is inside a map goes with the map */
                found = found || is_same(path, paths[j]);
            }
            kept[k] = (char)(kept[k] || below || (path.length && each->is_bag && is_at_or_below(paths[j], path)));
        }
        all_found = all_found && found;
    }
    add_text(to, head);
    for (k = 0; k < it->field_count; k++)
        if (kept[k])
            add(to, it->fields[k].text.text, it->fields[k].text.length);
    free(kept);
    return all_found;
}

/* ---- calls */

static baggage_span span_of(const buffer *it) {
    baggage_span span;
    span.bytes = it->text ? (const uint8_t *)it->text : BAGGAGE_LOST;
    span.length = it->length;
    return span;
}

/* One update, which takes the place of what `to` has; `to` may not be an input. */
static baggage_answer update(buffer *to, uint32_t form, const buffer *table, const baggage_span *inputs, size_t count, const buffer *writes) {
    size_t room = BAGGAGE_ROOM_FOR(writes->length), k;
    baggage_answer answer;
    baggage_span none = {BAGGAGE_LOST, 0};
    for (k = 0; k < count; k++)
        room += inputs[k].length;
    do {
        to->length = 0;
        reserve(to, room);
        answer = baggage_update(form, table->text, table->length, count ? inputs : &none, count, writes->text ? writes->text : "", writes->length,
                                BAGGAGE_NO_BUDGET, (uint8_t *)to->text, room);
        room = answer.size;
    } while (answer.status == BAGGAGE_ROOM);
    to->length = answer.status == BAGGAGE_OK ? answer.size : 0;
    return answer;
}

/* Brings a context to a form within a budget. */
static void cut(buffer *it, uint32_t form, uint64_t budget) {
    buffer to = {NULL, 0, 0};
    size_t room = BAGGAGE_ROOM_FOR(it->length);
    baggage_span input = span_of(it);
    baggage_answer answer = baggage_trim(form, input.bytes, input.length, budget, (uint8_t *)reserve(&to, room), room);
    if (answer.status != BAGGAGE_OK) {
        fprintf(stderr, "baggage_trim: %s\n", baggage_status_text(answer.status));
        exit(1);
    }
    clear(it);
    to.length = answer.size;
    *it = to;
}

static const char *code_of(const baggage_answer *answer) {
    return answer->status == BAGGAGE_TYPE ? "IllTyped" : baggage_code_text(answer->status, answer->code);
}

/* ---- lines */

static size_t find_service(const graph *it, word name) {
    size_t k = 0;
    while (k < it->service_count && !is_same(it->services[k].name, name))
        k++;
    return k;
}

static refusal add_service(graph *it, const word *words, size_t count) {
    service *here;
    size_t k;
    int some = count > 3 && is_word(words[2], "only"), all = count == 3 && is_word(words[2], "all");
    for (k = 3; some && k < count; k++)
        some = is_path(words[k]);
    if (count < 3 || !is_name(words[1]) || !(some || all || (count == 3 && is_word(words[2], "none"))))
        return refuse("Form");
    if (find_service(it, words[1]) < it->service_count)
        return refuse("DuplicateService");
    it->services = (service *)taken(realloc(it->services, (it->service_count + 1) * sizeof *it->services));
    here = &it->services[it->service_count++];
    memset(here, 0, sizeof *here);
    here->name = words[1];
    here->form = is_word(words[0], "service2") ? BAGGAGE_FORM_TWO : BAGGAGE_FORM_ONE;
    if (all)
        add(&here->table, it->table.text, it->table.length);
    else if (!add_excerpt(it, &here->table, words + 3, some ? count - 3 : 0))
        return refuse("NoSuchPath");
    return fine;
}

static refusal add_show(graph *it, const word *words, size_t count) {
    uint64_t number;
    if (count != 2 || !is_number(words[1], &number))
        return refuse("Form");
    if (number >= it->step_count)
        return refuse("NoSuchStep");
    it->shown = (size_t *)taken(realloc(it->shown, (it->shown_count + 1) * sizeof *it->shown));
    it->shown[it->shown_count++] = (size_t)number;
    return fine;
}

/* Whether the words have the form of their step; its parents stand at words[2] and so many words on. */
static int has_form(const word *words, size_t count, size_t *parents) {
    static const struct {
        const char *act;
        size_t words, parents;
    } acts[] = {{"start", 3, 0}, {"recv", 4, 0}, {"set", 5, 1}, {"branch", 3, 1}, {"forward", 4, 1}, {"trim", 4, 1}, {"join", 3, 1}};
    size_t k = 0, j;
    uint64_t number;
    while (k < 7 && !is_word(words[0], acts[k].act))
        k++;
    if (k == 7 || count < acts[k].words || (count > acts[k].words && k != 2 && k != 6) || !is_number(words[1], &number))
        return 0;
    *parents = k == 6 ? count - 2 : acts[k].parents;
    for (j = 0; j < *parents; j++)
        if (!is_number(words[2 + j], &number))
            return 0;
    return (k > 1 || is_name(words[2])) && (k != 1 || words[3].length) && (k != 2 || (is_path(words[3]) && (count > 5 || words[4].length))) &&
           (k != 4 || is_name(words[3])) && (k != 5 || is_number(words[3], &number));
}

static size_t parent_of(const word *words, size_t which) {
    uint64_t number = 0;
    return is_number(words[2 + which], &number) ? (size_t)number : 0;
}

/* Where a step stands: at a service that it names, or at that of its parents. */
static refusal find_place(const graph *it, const word *words, size_t parents, size_t *place) {
    size_t k;
    if (!parents || is_word(words[0], "forward")) {
        *place = find_service(it, words[parents ? 3 : 2]);
        return *place < it->service_count ? fine : refuse("NoSuchService");
    }
    *place = it->steps[parent_of(words, 0)].service;
    for (k = 1; k < parents; k++)
        if (it->steps[parent_of(words, k)].service != *place)
            return refuse("WrongService");
    return fine;
}

static refusal set(const graph *it, const service *at, const word *words, const char *line_end, buffer *list) {
    buffer writes = {NULL, 0, 0}, none = {NULL, 0, 0};
    baggage_span input = span_of(&it->steps[parent_of(words, 0)].list);
    baggage_answer answer;
    refusal why = fine;
    add(&writes, words[3].text, (size_t)(line_end - words[3].text)); /* `PATH TEXT` stands in the line as it is */
    add_text(&writes, "\n");
    answer = update(list, at->form, &at->table, &input, 1, &writes);
    if (answer.status == BAGGAGE_FIELD)
        why = refuse(update(&none, at->form, &it->table, NULL, 0, &writes).status == BAGGAGE_FIELD ? "NoSuchPath" : "NotKnown");
    else if (answer.status != BAGGAGE_OK)
        why = refuse("BadValue");
    clear(&writes);
    clear(&none);
    return why;
}

static refusal trim(const graph *it, const service *at, const word *words, buffer *list) {
    const buffer *parent = &it->steps[parent_of(words, 0)].list;
    uint64_t budget;
    if (!is_number(words[3], &budget) || budget > BUDGET_MAX || budget < (at->form == BAGGAGE_FORM_TWO ? 13 : 1))
        return refuse("BudgetRange");
    add(list, parent->text, parent->length);
    cut(list, at->form, budget);
    return fine;
}

static refusal receive(const graph *it, const service *at, word digits, buffer *list) {
    buffer bytes = {NULL, 0, 0}, nothing = {NULL, 0, 0};
    refusal why = fine;
    if (digits.length > DIGITS_MAX)
        return refuse("HexTooLong");
    if (!add_bytes(&bytes, digits)) {
        why = refuse("BadHex");
    } else {
        baggage_span input = span_of(&bytes);
        baggage_answer answer = update(list, at->form, &it->table, &input, 1, &nothing);
        if (answer.status != BAGGAGE_OK) {
            why.code = code_of(&answer);
            why.status = 3;
            why.offset = answer.offset;
        } else {
            answer = update(list, at->form, &at->table, &input, 1, &nothing);
            if (answer.status != BAGGAGE_OK)
                why = refuse("?");
        }
    }
    clear(&bytes);
    return why;
}

static refusal join(const graph *it, const service *at, const word *words, size_t parents, buffer *list) {
    baggage_span *inputs = (baggage_span *)taken(malloc(parents * sizeof *inputs));
    buffer nothing = {NULL, 0, 0};
    baggage_answer answer;
    size_t k;
    for (k = 0; k < parents; k++)
        inputs[k] = span_of(&it->steps[parent_of(words, k)].list);
    answer = update(list, at->form, &at->table, inputs, parents, &nothing);
    free(inputs);
    return answer.status == BAGGAGE_OK ? fine : refuse("?");
}

static refusal make_list(const graph *it, const service *at, const word *words, size_t parents, const char *line_end, buffer *list) {
    refusal why = fine;
    if (is_word(words[0], "set"))
        why = set(it, at, words, line_end, list);
    if (is_word(words[0], "trim"))
        why = trim(it, at, words, list);
    if (why.code)
        return why;
    if (it->step_count >= STEPS_MAX)
        return refuse("TooManySteps");
    if (parents > PARENTS_MAX)
        return refuse("TooManyParents");
    if (is_word(words[0], "recv"))
        return receive(it, at, words[3], list);
    if (is_word(words[0], "forward") || is_word(words[0], "join"))
        return join(it, at, words, is_word(words[0], "join") ? parents : 1, list);
    if (is_word(words[0], "branch"))
        add(list, it->steps[parent_of(words, 0)].list.text, it->steps[parent_of(words, 0)].list.length);
    return fine;
}

static refusal add_step(graph *it, const word *words, size_t count, const char *line_end) {
    size_t parents = 0, k, place = 0;
    uint64_t number;
    refusal why;
    step made = {{NULL, 0, 0}, 0};
    if (!has_form(words, count, &parents))
        return refuse("Form");
    if (!is_number(words[1], &number) || number != it->step_count)
        return refuse("StepNumber");
    for (k = 0; k < parents; k++)
        if (is_number(words[2 + k], &number) && number >= it->step_count)
            return refuse("NoSuchStep");
    why = find_place(it, words, parents, &place);
    if (why.code)
        return why;
    why = make_list(it, &it->services[place], words, parents, line_end, &made.list);
    if (why.code) {
        clear(&made.list);
        return why;
    }
    cut(&made.list, BAGGAGE_FORM_ONE, BAGGAGE_NO_BUDGET);
    made.service = place;
    if (!(it->step_count & (it->step_count - 1)))
        it->steps = (step *)taken(realloc(it->steps, (2 * it->step_count + 1) * sizeof *it->steps));
    it->steps[it->step_count++] = made;
    return fine;
}

static refusal add_line(graph *it, word line) {
    size_t count;
    word *words;
    refusal why;
    if (!is_utf8(line))
        return refuse("Form");
    words = split(line, ' ', &count);
    if (is_word(words[0], "service") || is_word(words[0], "service2"))
        why = add_service(it, words, count);
    else if (is_word(words[0], "show"))
        why = add_show(it, words, count);
    else
        why = add_step(it, words, count, line.text + line.length);
    free(words);
    return why;
}

/* ---- the report */

/* Adds the text of a slot, and gives its state. */
static uint32_t add_field(buffer *to, const graph *it, const buffer *list, const buffer *path) {
    size_t room = 64;
    baggage_span input = span_of(list);
    baggage_answer answer;
    do {
        char *here = reserve(to, room);
        answer = baggage_read_field(it->table.text, it->table.length, input.bytes, input.length, path->text, path->length, here, room);
        room = answer.size;
    } while (answer.status == BAGGAGE_ROOM);
    to->length += answer.size;
    return answer.code;
}

static void check_block(const graph *it, const buffer *list, const char *block, size_t length) {
    char *room = (char *)taken(malloc(length + 1));
    baggage_span input = span_of(list);
    baggage_answer answer = baggage_report(BAGGAGE_TEXT, it->table.text, it->table.length, input.bytes, input.length, room, length);
    if (answer.status != BAGGAGE_OK || answer.size != length || memcmp(room, block, length)) {
        fputs("the texts aren't those of the report\n", stderr);
        exit(1);
    }
    free(room);
}

static void add_block(buffer *to, const graph *it, size_t number) {
    const step *at = &it->steps[number];
    buffer list = {NULL, 0, 0}, text = {NULL, 0, 0};
    size_t k, begin;
    add(&list, at->list.text, at->list.length);
    cut(&list, it->services[at->service].form, BAGGAGE_NO_BUDGET);
    add_text(to, "step ");
    add_number(to, number);
    add_text(to, "\n");
    begin = to->length;
    add_text(to, "bytes ");
    add_digits(to, (const uint8_t *)list.text, list.length);
    for (k = 0; k < it->field_count; k++) {
        const field *each = &it->fields[k];
        if (each->is_bag || !each->path.length)
            continue;
        add_text(to, "\n");
        add(to, each->path.text, each->path.length);
        text.length = 0;
        add_text(to, add_field(&text, it, &list, &each->path) == BAGGAGE_EXACT ? " exact " : " partial ");
        add(to, text.text, text.length);
    }
    add_text(to, "\n");
    check_block(it, &list, to->text + begin, to->length - begin);
    clear(&list);
    clear(&text);
}

static void give_back(graph *it) {
    size_t k;
    for (k = 0; k < it->field_count; k++)
        clear(&it->fields[k].path);
    for (k = 0; k < it->service_count; k++)
        clear(&it->services[k].table);
    for (k = 0; k < it->step_count; k++)
        clear(&it->steps[k].list);
    free(it->fields);
    free(it->services);
    free(it->steps);
    free(it->shown);
    clear(&it->table);
}

static int run(graph *it, word source) {
    size_t count, k;
    word *lines;
    refusal why = source.length > INPUT_MAX ? refuse("TooLong") : fine;
    buffer report = {NULL, 0, 0};
    lines = split(source, '\n', &count);
    for (k = 0; k < count && !why.code; k++) {
        word line = lines[k];
        if (k + 1 < count && line.length && line.text[line.length - 1] == '\r')
            line.length--;
        if (line.length && line.text[0] != '#')
            why = add_line(it, line);
    }
    free(lines);
    if (why.status == 2)
        fprintf(stderr, "input line %zu %s\n", source.length > INPUT_MAX ? 0 : k, why.code);
    if (why.status == 3)
        fprintf(stderr, "context line %zu offset %zu %s\n", k, why.offset, why.code);
    for (k = 0; !why.code && k < it->shown_count; k++)
        add_block(&report, it, it->shown[k]);
    if (!why.code && report.length)
        fwrite(report.text, 1, report.length, stdout);
    clear(&report);
    return why.status;
}

int main(int argc, char **argv) {
    graph it;
    buffer source = {NULL, 0, 0};
    FILE *file = argc == 2 ? fopen(argv[1], "rb") : NULL;
    int status;
    memset(&it, 0, sizeof it);
    if (!file) {
        fputs("usage: run_graph TABLE < GRAPH\n", stderr);
        return 64;
    }
    add_file(&it.table, file);
    fclose(file);
    add_file(&source, stdin);
    if (baggage_check_table(it.table.text, it.table.length).status != BAGGAGE_OK) {
        fputs("that is no table\n", stderr);
        return 1;
    }
    read_fields(&it);
    status = run(&it, word_of(&source));
    give_back(&it);
    clear(&source);
    return status;
}
