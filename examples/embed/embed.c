/* Each call of the library, done and refused: it says nothing where all is as docs/FORMATS.md has it, and otherwise which line isn't.
 * request.c shows a request's life. */
#include <stdio.h>
#include <string.h>

#include "baggage.h"

#define EXPECT(fact)                                                  \
    do {                                                              \
        if (!(fact)) {                                                \
            fprintf(stderr, "%s:%d: %s\n", __FILE__, __LINE__, #fact); \
            return 1;                                                 \
        }                                                             \
    } while (0)

/* A header of level 0 with index 1, and below it one datum. */
static const uint8_t FIRST[] = {2, 0xf8, 1, 2, 0x00, 'a'};
static const uint8_t SECOND[] = {2, 0xf8, 1, 2, 0x00, 'b'};
static const uint8_t BOTH[] = {2, 0xf8, 1, 2, 0x00, 'a', 2, 0x00, 'b'};

/* What `baggage table examples/route.bdl Route` prints. */
#define TABLE "baggage table 1\n0 0 zone scalar string\n0 1 retries counter\n"

/* A text as a pointer and a length. */
#define TEXT(text) (text), sizeof(text) - 1

/* Bytes that are merged, cut and sent on without knowing their types. */
static int forwards(void) {
    uint8_t room[64];
    memset(room, 0xee, sizeof room);

    /* Where the room is too short, the answer says how much is needed, and nothing is written. */
    baggage_answer answer = baggage_merge(BAGGAGE_FORM_ONE, FIRST, sizeof FIRST, SECOND, sizeof SECOND, NULL, 0);
    EXPECT(answer.status == BAGGAGE_ROOM && answer.size == sizeof BOTH);
    answer = baggage_merge(BAGGAGE_FORM_ONE, FIRST, sizeof FIRST, SECOND, sizeof SECOND, room, sizeof BOTH - 1);
    EXPECT(answer.status == BAGGAGE_ROOM && answer.size == sizeof BOTH && room[0] == 0xee);

    answer = baggage_merge(BAGGAGE_FORM_ONE, FIRST, sizeof FIRST, SECOND, sizeof SECOND, room, sizeof room);
    EXPECT(answer.status == BAGGAGE_OK && answer.size == sizeof BOTH);
    EXPECT(memcmp(room, BOTH, sizeof BOTH) == 0 && room[sizeof BOTH] == 0xee);

    /* Any number of contexts at once. */
    const baggage_span spans[] = {{SECOND, sizeof SECOND}, {NULL, 0}, {FIRST, sizeof FIRST}, {BOTH, sizeof BOTH}};
    answer = baggage_merge_many(BAGGAGE_FORM_ONE, spans, 4, room, sizeof room);
    EXPECT(answer.status == BAGGAGE_OK && answer.size == sizeof BOTH && memcmp(room, BOTH, sizeof BOTH) == 0);
    answer = baggage_merge_many(BAGGAGE_FORM_ONE, NULL, 0, room, sizeof room);
    EXPECT(answer.status == BAGGAGE_OK && answer.size == 0);

    /* In form two a head of 12 bytes stands before the atoms. */
    answer = baggage_merge(BAGGAGE_FORM_TWO, FIRST, sizeof FIRST, SECOND, sizeof SECOND, room, sizeof room);
    EXPECT(answer.status == BAGGAGE_OK && answer.size == 12 + sizeof BOTH && room[0] == 0xff && room[3] == 2);
    EXPECT(room[11] == sizeof BOTH && memcmp(room + 12, BOTH, sizeof BOTH) == 0);

    /* What was cut off leaves a marker, an atom of no bytes. */
    answer = baggage_trim(BAGGAGE_FORM_ONE, BOTH, sizeof BOTH, 8, room, sizeof room);
    EXPECT(answer.status == BAGGAGE_OK && answer.size == sizeof FIRST + 1);
    EXPECT(memcmp(room, FIRST, sizeof FIRST) == 0 && room[sizeof FIRST] == 0);
    answer = baggage_trim(BAGGAGE_FORM_ONE, BOTH, sizeof BOTH, 0, room, sizeof room);
    EXPECT(answer.status == BAGGAGE_BUDGET);
    answer = baggage_trim(BAGGAGE_FORM_TWO, BOTH, sizeof BOTH, 12, room, sizeof room);
    EXPECT(answer.status == BAGGAGE_BUDGET);
    answer = baggage_trim(3, BOTH, sizeof BOTH, 8, room, sizeof room);
    EXPECT(answer.status == BAGGAGE_FORM);

    answer = baggage_forward(BAGGAGE_FORM_ONE, FIRST, sizeof FIRST, SECOND, sizeof SECOND, 8, room, sizeof room);
    EXPECT(answer.status == BAGGAGE_OK && answer.size == sizeof FIRST + 1);

    /* A context of no bytes has no atom. */
    answer = baggage_check(NULL, 0);
    EXPECT(answer.status == BAGGAGE_OK && answer.size == 0);
    answer = baggage_check(BOTH, sizeof BOTH);
    EXPECT(answer.status == BAGGAGE_OK && answer.size == 3);

    /* The first input that is wrong is reported, with its first fault. */
    answer = baggage_check(BOTH, sizeof BOTH - 1);
    EXPECT(answer.status == BAGGAGE_FAULT && answer.code == BAGGAGE_CUT_BODY && answer.context == 0 && answer.offset == 6);
    answer = baggage_merge(BAGGAGE_FORM_ONE, FIRST, sizeof FIRST, SECOND, sizeof SECOND - 1, room, sizeof room);
    EXPECT(answer.status == BAGGAGE_FAULT && answer.code == BAGGAGE_CUT_BODY && answer.context == 1 && answer.offset == 3);
    return 0;
}

/* A field by its name, under a table. */
static int writes_and_reads(void) {
    uint8_t sent[64];
    char room[64];
    memset(room, 0x2e, sizeof room);

    /* The zone is written, and read after the channel. */
    baggage_answer answer = baggage_write_field(BAGGAGE_FORM_ONE, TEXT(TABLE), TEXT("zone"), TEXT("\"north\""), sent, sizeof sent);
    EXPECT(answer.status == BAGGAGE_OK && answer.size == 10);
    size_t sent_len = answer.size;
    answer = baggage_read_field(TEXT(TABLE), sent, sent_len, TEXT("zone"), room, sizeof room);
    EXPECT(answer.status == BAGGAGE_OK && answer.code == BAGGAGE_EXACT && answer.size == 7);
    EXPECT(memcmp(room, "\"north\"", 7) == 0 && room[7] == '.');

    /* Of the retries nothing is said, and nothing was cut off. */
    answer = baggage_read_field(TEXT(TABLE), sent, sent_len, TEXT("retries"), room, sizeof room);
    EXPECT(answer.status == BAGGAGE_OK && answer.code == BAGGAGE_EXACT && answer.size == 3 && memcmp(room, "0{}", 3) == 0);

    /* Behind a cut nobody can tell. */
    uint8_t cut[16];
    answer = baggage_trim(BAGGAGE_FORM_ONE, sent, sent_len, 9, cut, sizeof cut);
    EXPECT(answer.status == BAGGAGE_OK && answer.size == 4);
    answer = baggage_read_field(TEXT(TABLE), cut, answer.size, TEXT("retries"), room, sizeof room);
    EXPECT(answer.status == BAGGAGE_OK && answer.code == BAGGAGE_PARTIAL && answer.size == 3);

    /* Where the room is too short, the answer says how much is needed, and nothing is written. */
    memset(room, '.', sizeof room);
    answer = baggage_read_field(TEXT(TABLE), sent, sent_len, TEXT("zone"), room, 6);
    EXPECT(answer.status == BAGGAGE_ROOM && answer.size == 7 && answer.code == 0 && room[0] == '.');
    answer = baggage_write_field(BAGGAGE_FORM_TWO, TEXT(TABLE), TEXT("retries"), TEXT("\"me\":3"), NULL, 0);
    EXPECT(answer.status == BAGGAGE_ROOM && answer.size > 12);

    /* Each refusal has its own status: of the table with its line, of the context with its byte. */
    answer = baggage_read_field(TEXT("baggage table 1\n0 0 zone scalar string"), sent, sent_len, TEXT("zone"), room, sizeof room);
    EXPECT(answer.status == BAGGAGE_TABLE && answer.code == BAGGAGE_LINE_FORM && answer.offset == 2);
    answer = baggage_read_field(TEXT(TABLE), sent, sent_len, TEXT("zones"), room, sizeof room);
    EXPECT(answer.status == BAGGAGE_FIELD);
    answer = baggage_write_field(BAGGAGE_FORM_ONE, TEXT(TABLE), TEXT("zone"), TEXT("north"), sent, sizeof sent);
    EXPECT(answer.status == BAGGAGE_WRITE);
    answer = baggage_read_field(TEXT(TABLE), sent, sent_len - 1, TEXT("zone"), room, sizeof room);
    EXPECT(answer.status == BAGGAGE_FAULT && answer.code == BAGGAGE_CUT_BODY && answer.offset == 3);
    const uint8_t no_string[] = {2, 0xf8, 0, 2, 0, 0xff};
    answer = baggage_read_field(TEXT(TABLE), no_string, sizeof no_string, TEXT("retries"), room, sizeof room);
    EXPECT(answer.status == BAGGAGE_TYPE && answer.offset == 3);
    answer = baggage_write_field(3, TEXT(TABLE), TEXT("zone"), TEXT("\"north\""), sent, sizeof sent);
    EXPECT(answer.status == BAGGAGE_FORM && sent[0] == 2);
    return 0;
}

/* What a service that knows the table does at each step. */
static int takes_steps(void) {
    uint8_t room[64];

    /* Two writes of one counter: the greater count stays. A merge alone would keep both. */
    const char writes[] = "retries \"me\":3\nretries \"me\":5\n";
    baggage_answer answer = baggage_update(BAGGAGE_FORM_ONE, TEXT(TABLE), NULL, 0, TEXT(writes), BAGGAGE_NO_BUDGET, room, sizeof room);
    const uint8_t five[] = {2, 0xf8, 1, 3, 0xf1, 'm', 'e', 2, 0, 5};
    EXPECT(answer.status == BAGGAGE_OK && answer.size == sizeof five && memcmp(room, five, sizeof five) == 0);

    /* A line that is no write is reported by its number, and so is one without its line feed. */
    answer = baggage_update(BAGGAGE_FORM_ONE, TEXT(TABLE), NULL, 0, TEXT("zone \"a\"\nzones 1\n"), BAGGAGE_NO_BUDGET, room, sizeof room);
    EXPECT(answer.status == BAGGAGE_FIELD && answer.offset == 2);
    answer = baggage_update(BAGGAGE_FORM_ONE, TEXT(TABLE), NULL, 0, TEXT("zone \"a\""), BAGGAGE_NO_BUDGET, room, sizeof room);
    EXPECT(answer.status == BAGGAGE_WRITE && answer.offset == 1);

    /* An input that is ill typed under the table is reported; under an excerpt without that field it passes. */
    const uint8_t no_string[] = {2, 0xf8, 0, 2, 0, 0xff};
    const baggage_span inputs[] = {{five, sizeof five}, {no_string, sizeof no_string}};
    answer = baggage_update(BAGGAGE_FORM_ONE, TEXT(TABLE), inputs, 2, NULL, 0, BAGGAGE_NO_BUDGET, room, sizeof room);
    EXPECT(answer.status == BAGGAGE_TYPE && answer.context == 1 && answer.offset == 3);
    answer = baggage_update(BAGGAGE_FORM_ONE, TEXT("baggage table 1\n0 1 retries counter\n"), inputs, 2, NULL, 0, BAGGAGE_NO_BUDGET, room, sizeof room);
    EXPECT(answer.status == BAGGAGE_OK && answer.size == sizeof five + sizeof no_string);

    /* Only the zone may leave; that something else was there is reported by a marker, or goes unsaid. */
    answer = baggage_keep(BAGGAGE_FORM_ONE, BAGGAGE_UNSAID, TEXT("baggage table 1\n0 0 zone scalar string\n"), inputs, 1, BAGGAGE_NO_BUDGET, room, sizeof room);
    EXPECT(answer.status == BAGGAGE_OK && answer.size == 0);
    answer = baggage_keep(BAGGAGE_FORM_ONE, BAGGAGE_CUT, TEXT("baggage table 1\n0 0 zone scalar string\n"), inputs, 1, BAGGAGE_NO_BUDGET, room, sizeof room);
    EXPECT(answer.status == BAGGAGE_OK && answer.size == 4 && room[3] == 0);
    answer = baggage_keep(BAGGAGE_FORM_ONE, 3, TEXT(TABLE), inputs, 1, BAGGAGE_NO_BUDGET, room, sizeof room);
    EXPECT(answer.status == BAGGAGE_CHOICE);

    /* Where a header was promised and can't be read, the lost context stands in: no field reads as exact any more. */
    const baggage_span replies[] = {{five, sizeof five}, {BAGGAGE_LOST, sizeof BAGGAGE_LOST}};
    answer = baggage_join(BAGGAGE_FORM_ONE, replies, 2, BAGGAGE_NO_BUDGET, room, sizeof room);
    EXPECT(answer.status == BAGGAGE_OK && answer.size == sizeof five + 1 && room[0] == 0);
    return 0;
}

/* All fields at once: their places in the bytes, and a report. */
static int reads_all(void) {
    const uint8_t context[] = {2, 0xf8, 1, 3, 0xf1, 'm', 'e', 2, 0, 5, 0};
    baggage_place places[3];
    memset(places, 0xee, sizeof places);
    baggage_answer answer = baggage_places(TEXT(TABLE), context, sizeof context, places, 3);
    EXPECT(answer.status == BAGGAGE_OK && answer.size == 2 && answer.code == BAGGAGE_FORM_ONE);
    EXPECT(places[0].offset == 0 && places[0].length == 0 && places[0].state == BAGGAGE_EXACT);
    EXPECT(places[1].offset == 3 && places[1].length == 8 && places[1].state == BAGGAGE_PARTIAL);
    EXPECT(places[2].state == 0xeeeeeeee);
    answer = baggage_places(TEXT(TABLE), context, sizeof context, NULL, 0);
    EXPECT(answer.status == BAGGAGE_ROOM && answer.size == 2);

    char text[160];
    const char report[] = "bytes 02f80103f16d6502000500\nzone exact -\nretries partial 5{0x6d65:5}\n";
    answer = baggage_report(BAGGAGE_TEXT, TEXT(TABLE), context, sizeof context, text, sizeof text);
    EXPECT(answer.status == BAGGAGE_OK && answer.size == sizeof report - 1 && memcmp(text, report, answer.size) == 0);
    const char json[] = "{\"bytes\":\"02f80103f16d6502000500\",\"fields\":[{\"path\":\"zone\",\"state\":\"exact\",\"text\":\"-\"},"
                        "{\"path\":\"retries\",\"state\":\"partial\",\"text\":\"5{0x6d65:5}\"}]}";
    answer = baggage_report(BAGGAGE_JSON, TEXT(TABLE), context, sizeof context, text, sizeof text);
    EXPECT(answer.status == BAGGAGE_OK && answer.size == sizeof json - 1 && memcmp(text, json, answer.size) == 0);
    answer = baggage_report(0, TEXT(TABLE), context, sizeof context, text, sizeof text);
    EXPECT(answer.status == BAGGAGE_CHOICE);
    return 0;
}

/* Tables, lines of pieces, and answers as text. */
static int tells(void) {
    EXPECT(baggage_version() == BAGGAGE_VERSION);
    baggage_answer answer = baggage_check_table(TEXT(TABLE));
    EXPECT(answer.status == BAGGAGE_OK && answer.size == 2);

    char text[96];
    answer = baggage_evolve(TEXT(TABLE), TEXT("baggage table 1\n0 0 zone set string\n0 1 retries counter\n"), text, sizeof text);
    EXPECT(answer.status == BAGGAGE_OK && answer.code == BAGGAGE_SHAPE && memcmp(text, "breaks 0 Shape\n", answer.size) == 0);
    answer = baggage_evolve(TEXT(TABLE), TEXT("baggage"), text, sizeof text);
    EXPECT(answer.status == BAGGAGE_TABLE && answer.context == 1 && answer.offset == 1 && answer.code == BAGGAGE_HEAD);
    EXPECT(baggage_describe(&answer, text, sizeof text) == 20 && strcmp(text, "table 1 line 1: Head") == 0);

    answer = baggage_carry(FIRST, sizeof FIRST, 4, text, sizeof text);
    EXPECT(answer.status == BAGGAGE_OK && memcmp(text, "p 0 2 AvgBAg==\np 1 2 AGE=\n", answer.size) == 0);
    uint8_t room[16];
    answer = baggage_collect(text, answer.size, room, sizeof room);
    EXPECT(answer.status == BAGGAGE_OK && answer.size == sizeof FIRST && memcmp(room, FIRST, sizeof FIRST) == 0);
    answer = baggage_collect(text, 15, room, sizeof room);
    EXPECT(answer.status == BAGGAGE_PIECES && answer.code == BAGGAGE_MISSING && answer.offset == 1);
    answer = baggage_carry(FIRST, sizeof FIRST, 3, text, sizeof text);
    EXPECT(answer.status == BAGGAGE_WIDTH);

    answer = baggage_check(BOTH, sizeof BOTH - 1);
    baggage_describe(&answer, text, sizeof text);
    EXPECT(strcmp(text, "context 0: CutBody at byte 6") == 0);
    EXPECT(strcmp(baggage_status_text(99), "?") == 0 && strcmp(baggage_code_text(BAGGAGE_OK, 1), "") == 0);
    return 0;
}

int main(void) {
    return forwards() || writes_and_reads() || takes_steps() || reads_all() || tells();
}
