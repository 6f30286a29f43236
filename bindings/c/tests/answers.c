/* answers < QUESTIONS: a line for each, made through the library's calls and the header of carriers. See bindings/tests/README.md. */
#include "baggage_carriers.h"
#include "words.h"

/* A question in work: its answer, and what is to be given back after it. */
typedef struct question {
    word *words;
    size_t count;
    buffer answer;
    buffer kept[64];
    size_t kept_count;
    baggage_span spans[64];
    size_t span_count;
} question;

static buffer *kept(question *it) {
    if (it->kept_count == 64)
        exit(1);
    return &it->kept[it->kept_count++];
}

static const uint8_t *bytes_of(const buffer *it) { return it->text ? (const uint8_t *)it->text : BAGGAGE_LOST; }

static const char *text_of(const buffer *it) { return it->text ? it->text : ""; }

static buffer *bytes(question *it, size_t which) {
    buffer *found = kept(it);
    if (!add_bytes(found, it->words[which])) {
        fputs("a question has other words\n", stderr);
        exit(1);
    }
    return found;
}

/* Says why there is no answer, and gives 0; 1 where there is one. */
static int is_good(question *it, const baggage_answer *answer) {
    buffer *to = &it->answer;
    const char *code = baggage_code_text(answer->status, answer->code);
    switch (answer->status) {
    case BAGGAGE_OK: return 1;
    case BAGGAGE_FAULT: add_text(to, "! Fault "); break;
    case BAGGAGE_TYPE:
        add_text(to, "! IllTyped ");
        add_number(to, answer->context);
        add_text(to, " ");
        break;
    case BAGGAGE_TABLE: add_text(to, "! BadTable "); break;
    case BAGGAGE_FIELD: add_text(to, "! NoField "); break;
    case BAGGAGE_WRITE: add_text(to, "! BadWrite "); break;
    default: add_text(to, "! ?"); return 0;
    }
    add_number(to, answer->offset);
    if (*code) {
        add_text(to, " ");
        add_text(to, code);
    }
    return 0;
}

/* The context of a word, in form one; 0 where it is none. */
static int parse(question *it, size_t which) {
    buffer *raw = bytes(it, which), *to = kept(it);
    size_t room = BAGGAGE_ROOM_FOR(raw->length);
    baggage_answer answer = baggage_merge(BAGGAGE_FORM_ONE, bytes_of(raw), raw->length, BAGGAGE_LOST, 0, (uint8_t *)reserve(to, room), room);
    if (!is_good(it, &answer))
        return 0;
    to->length = answer.size;
    it->spans[it->span_count].bytes = bytes_of(to);
    it->spans[it->span_count++].length = to->length;
    return 1;
}

static int parse_from(question *it, size_t which) {
    for (; which < it->count; which++)
        if (!parse(it, which))
            return 0;
    return 1;
}

static size_t total(const question *it) {
    size_t sum = 0, k;
    for (k = 0; k < it->span_count; k++)
        sum += it->spans[k].length;
    return sum;
}

static uint32_t form_of(word it) { return is_word(it, "2") ? BAGGAGE_FORM_TWO : BAGGAGE_FORM_ONE; }

/* A budget, which is raised to the least one of the form. */
static uint64_t budget_of(word it, uint32_t form) {
    uint64_t least = form == BAGGAGE_FORM_TWO ? 13 : 1, budget;
    char digits[24] = {0};
    if (is_word(it, "-"))
        return BAGGAGE_NO_BUDGET;
    memcpy(digits, it.text, it.length < 23 ? it.length : 23);
    budget = strtoull(digits, NULL, 10);
    return budget < least ? least : budget;
}

/* Answers with bytes that are a context's, in the form that is asked for. */
static void show(question *it, uint32_t form, const uint8_t *context, size_t length) {
    size_t room = BAGGAGE_ROOM_FOR(length);
    buffer *to = kept(it);
    baggage_answer answer = baggage_merge(form, context, length, BAGGAGE_LOST, 0, (uint8_t *)reserve(to, room), room);
    if (is_good(it, &answer))
        add_digits(&it->answer, (const uint8_t *)to->text, answer.size);
}

static void join(question *it, uint32_t form, uint64_t budget) {
    size_t room = BAGGAGE_ROOM_FOR(total(it));
    buffer *to = kept(it);
    baggage_answer answer = baggage_join(form, it->spans, it->span_count, budget, (uint8_t *)reserve(to, room), room);
    if (is_good(it, &answer))
        show(it, BAGGAGE_FORM_ONE, (uint8_t *)to->text, answer.size);
}

static void extract(question *it, size_t first, uint32_t absent) {
    size_t size, k;
    buffer *room = kept(it);
    for (k = first; k < it->count; k++) {
        buffer *value = bytes(it, k);
        it->spans[it->span_count].bytes = bytes_of(value);
        it->spans[it->span_count++].length = value->length;
    }
    /* A room of its own, so that a sanitizer sees its end. */
    room->room = BAGGAGE_EXTRACT_ROOM(total(it));
    room->text = (char *)taken(malloc(room->room));
    size = baggage_extract((uint8_t *)room->text, it->spans, it->span_count, absent, NULL);
    add_digits(&it->answer, (uint8_t *)room->text, size);
}

static void from_one(question *it, int is_binary) {
    const buffer *text = bytes(it, 1);
    size_t room = is_binary ? BAGGAGE_ROOM_FOR(text->length) : BAGGAGE_EXTRACT_ROOM(text->length), size;
    uint8_t *context = (uint8_t *)taken(malloc(room));
    int lost;
    size = is_binary ? baggage_from_binary(context, bytes_of(text), text->length, &lost) : baggage_from_header(context, text_of(text), text->length, &lost);
    add_digits(&it->answer, context, size);
    free(context);
}

static void quote(question *it) {
    const buffer *text = bytes(it, 1);
    char *room = (char *)taken(malloc(BAGGAGE_QUOTE_ROOM(text->length)));
    baggage_answer answer = baggage_quote(BAGGAGE_STRING, text_of(text), text->length, room, BAGGAGE_QUOTE_ROOM(text->length));
    if (answer.status != BAGGAGE_OK)
        exit(1);
    add_digits(&it->answer, (uint8_t *)room, answer.size);
    free(room);
}

static void to_header(question *it) {
    size_t letters = baggage_header_letters(it->spans[0].length);
    char *room = (char *)taken(malloc(letters));
    if (baggage_to_header(room, it->spans[0].bytes, it->spans[0].length) != letters)
        exit(1);
    add(&it->answer, room, letters);
    free(room);
}

/* ---- questions with a table */

static void update(question *it, const buffer *table, uint32_t form, const buffer *writes, uint64_t budget) {
    size_t room = BAGGAGE_ROOM_FOR(total(it));
    buffer *to = kept(it);
    baggage_answer answer;
    do {
        answer = baggage_update(form, text_of(table), table->length, it->spans, it->span_count, text_of(writes), writes->length, budget,
                                (uint8_t *)reserve(to, room), room);
        room = answer.size;
    } while (answer.status == BAGGAGE_ROOM);
    if (is_good(it, &answer))
        show(it, BAGGAGE_FORM_ONE, (uint8_t *)to->text, answer.size);
}

static void keep(question *it, const buffer *table, uint32_t form, uint64_t budget) {
    size_t room = BAGGAGE_ROOM_FOR(total(it));
    buffer *to = kept(it);
    uint32_t others = is_word(it->words[3], "cut") ? BAGGAGE_CUT : BAGGAGE_UNSAID;
    baggage_answer answer;
    do {
        answer = baggage_keep(form, others, text_of(table), table->length, it->spans, it->span_count, budget, (uint8_t *)reserve(to, room), room);
        room = answer.size;
    } while (answer.status == BAGGAGE_ROOM);
    if (is_good(it, &answer))
        show(it, BAGGAGE_FORM_ONE, (uint8_t *)to->text, answer.size);
}

static void text(question *it, const buffer *table) {
    size_t room = 0;
    buffer *to = kept(it);
    baggage_answer answer;
    do {
        answer = baggage_read_field(text_of(table), table->length, it->spans[0].bytes, it->spans[0].length, it->words[2].text, it->words[2].length,
                                    reserve(to, room), room);
        room = answer.size;
    } while (answer.status == BAGGAGE_ROOM);
    if (!is_good(it, &answer))
        return;
    add_text(&it->answer, answer.code == BAGGAGE_EXACT ? "exact " : "partial ");
    add(&it->answer, to->text, answer.size);
}

static void report(question *it, const buffer *table) {
    size_t room = 0;
    buffer *to = kept(it);
    baggage_answer answer;
    do {
        answer = baggage_report(BAGGAGE_TEXT, text_of(table), table->length, it->spans[0].bytes, it->spans[0].length, reserve(to, room), room);
        room = answer.size;
    } while (answer.status == BAGGAGE_ROOM);
    if (is_good(it, &answer))
        add_digits(&it->answer, (uint8_t *)to->text, answer.size);
}

static int of_table(question *it) {
    static const char *const calls[] = {"receive", "update", "keep", "text", "report"};
    static const size_t contexts[] = {3, 5, 5, 3, 2};
    const buffer *table, *writes;
    baggage_answer answer;
    size_t k = 0;
    buffer nothing = {NULL, 0, 0};
    while (k < 5 && !is_word(it->words[0], calls[k]))
        k++;
    if (k == 5)
        return 0;
    table = bytes(it, 1);
    answer = baggage_check_table(text_of(table), table->length);
    if (!is_good(it, &answer))
        return 1;
    if (k == 0) {
        const buffer *received = bytes(it, 2);
        it->spans[it->span_count].bytes = bytes_of(received);
        it->spans[it->span_count++].length = received->length;
        update(it, table, BAGGAGE_FORM_ONE, &nothing, BAGGAGE_NO_BUDGET);
        return 1;
    }
    writes = k == 1 ? bytes(it, 4) : &nothing;
    if (!parse_from(it, contexts[k]))
        return 1;
    if (k == 1)
        update(it, table, form_of(it->words[2]), writes, budget_of(it->words[3], form_of(it->words[2])));
    if (k == 2)
        keep(it, table, form_of(it->words[2]), budget_of(it->words[4], form_of(it->words[2])));
    if (k == 3)
        text(it, table);
    if (k == 4)
        report(it, table);
    return 1;
}

static void answer_to(question *it) {
    word call = it->words[0];
    int is_cut = is_word(call, "cut"), is_bytes = is_word(call, "bytes");
    if (is_word(call, "from_header") || is_word(call, "from_binary"))
        from_one(it, is_word(call, "from_binary"));
    else if (is_word(call, "extract"))
        extract(it, 2, is_word(it->words[1], "lost") ? BAGGAGE_ABSENT_LOST : BAGGAGE_ABSENT_EMPTY);
    else if (is_word(call, "quote"))
        quote(it);
    else if (is_cut || is_bytes || is_word(call, "parse") || is_word(call, "join") || is_word(call, "to_header")) {
        if (!parse_from(it, is_cut ? 3 : is_bytes ? 2 : 1))
            return;
        if (is_bytes)
            show(it, form_of(it->words[1]), it->spans[0].bytes, it->spans[0].length);
        else if (is_word(call, "to_header"))
            to_header(it);
        else
            join(it, is_cut ? form_of(it->words[1]) : BAGGAGE_FORM_ONE, is_cut ? budget_of(it->words[2], form_of(it->words[1])) : BAGGAGE_NO_BUDGET);
    } else if (!of_table(it))
        add_text(&it->answer, "! Unknown");
}

int main(void) {
    buffer source = {NULL, 0, 0};
    size_t count, k, j;
    word all, *lines;
    add_file(&source, stdin);
    all.text = source.text;
    all.length = source.length;
    lines = split(all, '\n', &count);
    for (k = 0; k + 1 < count; k++) {
        question it;
        memset(&it, 0, sizeof it);
        it.words = split(lines[k], ' ', &it.count);
        answer_to(&it);
        add_text(&it.answer, "\n");
        fwrite(it.answer.text, 1, it.answer.length, stdout);
        for (j = 0; j < it.kept_count; j++)
            free(it.kept[j].text);
        free(it.answer.text);
        free(it.words);
    }
    free(lines);
    free(source.text);
    return 0;
}
