/* What a program in C does with the library, call by call, and a request's whole life. It says nothing where all is as baggage.h and
 * docs/FORMATS.md have it, and otherwise which line isn't. */
#include "baggage_ingress.h"

#define EXPECT(fact)                                                   \
    do {                                                               \
        if (!(fact)) {                                                 \
            fprintf(stderr, "%s:%d: %s\n", __FILE__, __LINE__, #fact); \
            return 1;                                                  \
        }                                                              \
    } while (0)

/* A text as a pointer and a length. */
#define TEXT(text) (text), sizeof(text) - 1
#define BYTES(bytes) (bytes), sizeof(bytes)

/* A header of level 0 with index 1, and below it one datum. */
static const uint8_t FIRST[] = {2, 0xf8, 1, 2, 0, 'a'};
static const uint8_t SECOND[] = {2, 0xf8, 1, 2, 0, 'b'};
static const uint8_t BOTH[] = {2, 0xf8, 1, 2, 0, 'a', 2, 0, 'b'};
static const uint8_t ID_SEVEN[] = {2, 0xf8, 0, 5, 0, 0, 0, 0, 7};

#define TABLE "baggage table 1\n0 0 id scalar fixed32\n0 1 tags set string\n0 2 hops counter\n0 3 debug taint\n0 4 load map string scalar uint32\n"
#define TAGS_HOPS "baggage table 1\n0 1 tags set string\n0 2 hops counter\n"
#define HOPS_LOAD "baggage table 1\n0 2 hops counter\n0 4 load map string scalar uint32\n"
#define ID_DEBUG "baggage table 1\n0 0 id scalar fixed32\n0 3 debug taint\n"
#define NOTHING "baggage table 1\n"

static int is(const baggage_answer *answer, uint32_t status, uint32_t code, size_t context, size_t offset, size_t size) {
    return answer->status == status && answer->code == code && answer->context == context && answer->offset == offset && answer->size == size;
}

/* Bytes that are merged, cut and sent on without knowing their types. */
static int forwards(void) {
    uint8_t room[64];
    baggage_answer answer;
    baggage_span spans[4];
    memset(room, 0xee, sizeof room);
    EXPECT(baggage_version() == BAGGAGE_VERSION);

    /* Where the room is too short, the answer says how much is needed, and nothing is written. */
    answer = baggage_merge(BAGGAGE_FORM_ONE, BYTES(FIRST), BYTES(SECOND), NULL, 0);
    EXPECT(is(&answer, BAGGAGE_ROOM, 0, 0, 0, sizeof BOTH));
    answer = baggage_merge(BAGGAGE_FORM_ONE, BYTES(FIRST), BYTES(SECOND), room, sizeof BOTH - 1);
    EXPECT(is(&answer, BAGGAGE_ROOM, 0, 0, 0, sizeof BOTH) && room[0] == 0xee);
    answer = baggage_merge(BAGGAGE_FORM_ONE, BYTES(FIRST), BYTES(SECOND), room, sizeof room);
    EXPECT(is(&answer, BAGGAGE_OK, 0, 0, 0, sizeof BOTH) && memcmp(room, BOTH, sizeof BOTH) == 0 && room[sizeof BOTH] == 0xee);

    /* Nothing is merged or cut in place. */
    memset(room, 0xee, sizeof room);
    memcpy(room + 20, BOTH, sizeof BOTH);
    answer = baggage_merge(BAGGAGE_FORM_ONE, room + 20, sizeof BOTH, BYTES(FIRST), room + 20, 40);
    EXPECT(is(&answer, BAGGAGE_OVERLAP, 0, 0, 0, 0));
    answer = baggage_forward(BAGGAGE_FORM_ONE, BYTES(FIRST), room + 20, sizeof BOTH, 8, room, 21);
    EXPECT(is(&answer, BAGGAGE_OVERLAP, 0, 0, 0, 0));
    answer = baggage_trim(BAGGAGE_FORM_ONE, room + 20, sizeof BOTH, 8, room + 20 + sizeof BOTH - 1, 20);
    EXPECT(is(&answer, BAGGAGE_OVERLAP, 0, 0, 0, 0) && room[0] == 0xee && memcmp(room + 20, BOTH, sizeof BOTH) == 0 && room[20 + sizeof BOTH] == 0xee);
    answer = baggage_trim(BAGGAGE_FORM_ONE, room + 20, sizeof BOTH, 8, room, 20);
    EXPECT(answer.status == BAGGAGE_OK && baggage_trim(BAGGAGE_FORM_ONE, room + 20, sizeof BOTH, 8, room + 20 + sizeof BOTH, 20).status == BAGGAGE_OK);

    /* Any number of contexts at once. */
    spans[0].bytes = SECOND, spans[0].length = sizeof SECOND;
    spans[1].bytes = NULL, spans[1].length = 0;
    spans[2].bytes = FIRST, spans[2].length = sizeof FIRST;
    spans[3].bytes = BOTH, spans[3].length = sizeof BOTH;
    answer = baggage_merge_many(BAGGAGE_FORM_ONE, spans, 4, room, sizeof room);
    EXPECT(is(&answer, BAGGAGE_OK, 0, 0, 0, sizeof BOTH) && memcmp(room, BOTH, sizeof BOTH) == 0);
    answer = baggage_join(BAGGAGE_FORM_ONE, NULL, 0, 1, room, sizeof room);
    EXPECT(is(&answer, BAGGAGE_OK, 0, 0, 0, 0));
    answer = baggage_join(BAGGAGE_FORM_ONE, spans, 4, 8, room, sizeof room);
    EXPECT(is(&answer, BAGGAGE_OK, 0, 0, 0, sizeof FIRST + 1) && memcmp(room, FIRST, sizeof FIRST) == 0 && room[sizeof FIRST] == 0);

    /* In form two a head of 12 bytes stands before the atoms. */
    answer = baggage_merge(BAGGAGE_FORM_TWO, BYTES(FIRST), BYTES(SECOND), room, sizeof room);
    EXPECT(is(&answer, BAGGAGE_OK, 0, 0, 0, 12 + sizeof BOTH) && room[0] == 0xff && room[3] == 2);
    EXPECT(room[11] == sizeof BOTH && memcmp(room + 12, BOTH, sizeof BOTH) == 0);

    /* What was cut off leaves a marker, an atom of no bytes. */
    answer = baggage_trim(BAGGAGE_FORM_ONE, BYTES(BOTH), 8, room, sizeof room);
    EXPECT(is(&answer, BAGGAGE_OK, 0, 0, 0, sizeof FIRST + 1) && memcmp(room, FIRST, sizeof FIRST) == 0 && room[sizeof FIRST] == 0);
    EXPECT((answer = baggage_trim(BAGGAGE_FORM_ONE, BYTES(BOTH), 0, room, sizeof room), is(&answer, BAGGAGE_BUDGET, 0, 0, 0, 0)));
    EXPECT((answer = baggage_trim(BAGGAGE_FORM_TWO, BYTES(BOTH), 12, room, sizeof room), is(&answer, BAGGAGE_BUDGET, 0, 0, 0, 0)));
    EXPECT((answer = baggage_trim(3, BYTES(BOTH), 0, room, sizeof room), is(&answer, BAGGAGE_FORM, 0, 0, 0, 0)));
    answer = baggage_forward(BAGGAGE_FORM_ONE, BYTES(FIRST), BYTES(SECOND), 8, room, sizeof room);
    EXPECT(is(&answer, BAGGAGE_OK, 0, 0, 0, sizeof FIRST + 1));

    /* A context of no bytes has no atom. The first input that is wrong is reported, with its first fault. */
    EXPECT((answer = baggage_check(NULL, 0), is(&answer, BAGGAGE_OK, 0, 0, 0, 0)));
    EXPECT((answer = baggage_check(BYTES(BOTH)), is(&answer, BAGGAGE_OK, 0, 0, 0, 3)));
    EXPECT((answer = baggage_check(BOTH, sizeof BOTH - 1), is(&answer, BAGGAGE_FAULT, BAGGAGE_CUT_BODY, 0, 6, 0)));
    answer = baggage_merge(BAGGAGE_FORM_ONE, BYTES(FIRST), SECOND, sizeof SECOND - 1, room, sizeof room);
    EXPECT(is(&answer, BAGGAGE_FAULT, BAGGAGE_CUT_BODY, 1, 3, 0));
    EXPECT((answer = baggage_check(BYTES(BAGGAGE_LOST)), is(&answer, BAGGAGE_OK, 0, 0, 0, 1)));
    return 0;
}

/* A field by its name, under a table. */
static int writes_and_reads(void) {
    char text[256];
    uint8_t room[64];
    baggage_answer answer;
    const uint8_t no_number[] = {2, 0xf8, 0, 2, 0, 0xff};
    answer = baggage_write_field(BAGGAGE_FORM_ONE, TEXT(TABLE), TEXT("id"), TEXT("7"), room, sizeof room);
    EXPECT(is(&answer, BAGGAGE_OK, 0, 0, 0, sizeof ID_SEVEN) && memcmp(room, ID_SEVEN, sizeof ID_SEVEN) == 0);
    answer = baggage_read_field(TEXT(TABLE), BYTES(ID_SEVEN), TEXT("id"), text, sizeof text);
    EXPECT(is(&answer, BAGGAGE_OK, BAGGAGE_EXACT, 0, 0, 1) && text[0] == '7');
    /* Of the hops nothing is said, and nothing was cut off; after a cut nobody can tell. */
    answer = baggage_read_field(TEXT(TABLE), BYTES(ID_SEVEN), TEXT("hops"), text, sizeof text);
    EXPECT(is(&answer, BAGGAGE_OK, BAGGAGE_EXACT, 0, 0, 3) && memcmp(text, "0{}", 3) == 0);
    answer = baggage_read_field(TEXT(TABLE), BYTES(BAGGAGE_LOST), TEXT("hops"), text, sizeof text);
    EXPECT(is(&answer, BAGGAGE_OK, BAGGAGE_PARTIAL, 0, 0, 3));
    /* Each refusal has its own status. */
    answer = baggage_read_field(TEXT("baggage table 1\n0 0 id scalar fixed32"), BYTES(ID_SEVEN), TEXT("id"), text, sizeof text);
    EXPECT(is(&answer, BAGGAGE_TABLE, BAGGAGE_LINE_FORM, 0, 2, 0));
    EXPECT((answer = baggage_read_field(TEXT(TABLE), BYTES(ID_SEVEN), TEXT("idd"), text, sizeof text), is(&answer, BAGGAGE_FIELD, 0, 0, 0, 0)));
    answer = baggage_write_field(BAGGAGE_FORM_ONE, TEXT(TABLE), TEXT("id"), TEXT("seven"), room, sizeof room);
    EXPECT(is(&answer, BAGGAGE_WRITE, 0, 0, 0, 0));
    answer = baggage_read_field(TEXT(TABLE), ID_SEVEN, sizeof ID_SEVEN - 1, TEXT("id"), text, sizeof text);
    EXPECT(is(&answer, BAGGAGE_FAULT, BAGGAGE_CUT_BODY, 0, 3, 0));
    answer = baggage_read_field(TEXT(TABLE), BYTES(no_number), TEXT("hops"), text, sizeof text);
    EXPECT(is(&answer, BAGGAGE_TYPE, 0, 0, 3, 0));
    answer = baggage_update(BAGGAGE_FORM_ONE, TEXT(TABLE), NULL, 0, TEXT("id 7\nid x\n"), 99, room, sizeof room);
    EXPECT(is(&answer, BAGGAGE_WRITE, 0, 0, 2, 0));
    answer = baggage_update(BAGGAGE_FORM_ONE, TEXT(TABLE), NULL, 0, TEXT("id 7"), 99, room, sizeof room);
    EXPECT(is(&answer, BAGGAGE_WRITE, 0, 0, 1, 0));
    return 0;
}

/* Places, reports, tables and pieces. */
static int looks(void) {
    static const uint8_t tags_cut[] = {2, 0xf8, 0, 5, 0, 0, 0, 0, 7, 2, 0xf8, 1, 0};
    static const char block[] = "bytes 02f800050000000007\nid exact 7\ntags exact {}\nhops exact 0{}\ndebug exact off\nload exact {}\n";
    static const char json[] = "{\"bytes\":\"02f800050000000007\",\"fields\":[{\"path\":\"id\",\"state\":\"exact\",\"text\":\"7\"},"
                               "{\"path\":\"debug\",\"state\":\"exact\",\"text\":\"off\"}]}";
    static const char pieces[] = "p 0 3 AvgABQ==\np 1 3 AAAAAA==\np 2 3 Bw==\n";
    static const size_t chosen[3] = {1, 0, 5};
    baggage_place places[6];
    char text[512];
    uint8_t room[64];
    baggage_answer answer;
    memset(places, 0xee, sizeof places);
    answer = baggage_places(TEXT(TABLE), BYTES(tags_cut), places, 4);
    EXPECT(is(&answer, BAGGAGE_ROOM, 0, 0, 0, 5));
    answer = baggage_places(TEXT(TABLE), BYTES(tags_cut), places, 6);
    EXPECT(is(&answer, BAGGAGE_OK, BAGGAGE_FORM_ONE, 0, 0, 5) && places[5].state == 0xeeeeeeee);
    EXPECT(places[0].offset == 3 && places[0].length == 6 && places[0].state == BAGGAGE_EXACT && places[0].zero == 0);
    EXPECT(places[1].offset == 12 && places[1].length == 1 && places[1].state == BAGGAGE_PARTIAL);
    EXPECT(places[4].offset == 13 && places[4].length == 0 && places[4].state == BAGGAGE_PARTIAL);

    memset(places, 0xee, sizeof places);
    answer = baggage_chosen_places(TEXT(TABLE), chosen, 3, BYTES(tags_cut), places, 6);
    EXPECT(is(&answer, BAGGAGE_FIELD, 0, 2, 0, 0) && places[0].state == 0xeeeeeeee);
    answer = baggage_chosen_places(TEXT(TABLE), chosen, 2, BYTES(tags_cut), places, 1);
    EXPECT(is(&answer, BAGGAGE_ROOM, 0, 0, 0, 2) && places[0].state == 0xeeeeeeee);
    answer = baggage_chosen_places(TEXT(TABLE), chosen, 2, BYTES(tags_cut), places, 6);
    EXPECT(is(&answer, BAGGAGE_OK, BAGGAGE_FORM_ONE, 0, 0, 2) && places[2].state == 0xeeeeeeee);
    EXPECT(places[0].offset == 12 && places[0].length == 1 && places[0].state == BAGGAGE_PARTIAL);
    EXPECT(places[1].offset == 3 && places[1].length == 6 && places[1].state == BAGGAGE_EXACT && places[1].zero == 0);

    answer = baggage_report(BAGGAGE_TEXT, TEXT(TABLE), BYTES(ID_SEVEN), text, sizeof text);
    EXPECT(is(&answer, BAGGAGE_OK, 0, 0, 0, sizeof block - 1) && memcmp(text, block, sizeof block - 1) == 0);
    answer = baggage_report(BAGGAGE_JSON, TEXT(ID_DEBUG), BYTES(ID_SEVEN), text, sizeof text);
    EXPECT(is(&answer, BAGGAGE_OK, 0, 0, 0, sizeof json - 1) && memcmp(text, json, sizeof json - 1) == 0);
    EXPECT((answer = baggage_report(3, TEXT(""), BYTES(ID_SEVEN), text, sizeof text), is(&answer, BAGGAGE_CHOICE, 0, 0, 0, 0)));

    EXPECT((answer = baggage_check_table(TEXT(TABLE)), is(&answer, BAGGAGE_OK, 0, 0, 0, 5)));
    EXPECT((answer = baggage_check_table(TABLE, sizeof TABLE - 2), is(&answer, BAGGAGE_TABLE, BAGGAGE_LINE_FORM, 0, 6, 0)));
    answer = baggage_evolve(TEXT(TABLE), TEXT(ID_DEBUG), text, sizeof text);
    EXPECT(is(&answer, BAGGAGE_OK, BAGGAGE_FITS, 0, 0, 5) && memcmp(text, "ok 2\n", 5) == 0);
    answer = baggage_evolve(TEXT(TABLE), TEXT("baggage table 1\n0 0 id scalar uint32\n"), text, sizeof text);
    EXPECT(is(&answer, BAGGAGE_OK, BAGGAGE_KIND, 0, 0, 14) && memcmp(text, "breaks 0 Kind\n", 14) == 0);
    EXPECT((answer = baggage_evolve(TEXT(TABLE), TEXT(""), text, sizeof text), is(&answer, BAGGAGE_TABLE, BAGGAGE_HEAD, 1, 1, 0)));

    answer = baggage_carry(BYTES(ID_SEVEN), 4, text, sizeof text);
    EXPECT(is(&answer, BAGGAGE_OK, 0, 0, 0, sizeof pieces - 1) && memcmp(text, pieces, sizeof pieces - 1) == 0);
    EXPECT((answer = baggage_carry(BYTES(ID_SEVEN), 3, text, sizeof text), is(&answer, BAGGAGE_WIDTH, 0, 0, 0, 0)));
    answer = baggage_collect(TEXT("p 2 3 Bw==\np 0 3 AvgABQ==\n# again\np 2 3 Bw==\np 1 3 AAAAAA==\n"), room, sizeof room);
    EXPECT(is(&answer, BAGGAGE_OK, 0, 0, 0, sizeof ID_SEVEN) && memcmp(room, ID_SEVEN, sizeof ID_SEVEN) == 0);
    EXPECT((answer = baggage_collect(TEXT("p 2 3 Bw==\np 0 3 AvgABQ==\n"), room, sizeof room), is(&answer, BAGGAGE_PIECES, BAGGAGE_MISSING, 0, 1, 0)));
    EXPECT((answer = baggage_collect(TEXT("p 0 1 gAA=\n"), room, sizeof room), is(&answer, BAGGAGE_FAULT, BAGGAGE_LONG_FORM, 0, 0, 0)));

    answer = baggage_quote(BAGGAGE_STRING, TEXT("a\"\\\n"), text, sizeof text);
    EXPECT(is(&answer, BAGGAGE_OK, 0, 0, 0, 11) && memcmp(text, "\"a\\\"\\\\\\x0a\"", 11) == 0);
    answer = baggage_quote(BAGGAGE_BYTES, TEXT("a\n"), text, BAGGAGE_QUOTE_ROOM(2));
    EXPECT(is(&answer, BAGGAGE_OK, 0, 0, 0, 6) && memcmp(text, "0x610a", 6) == 0);
    EXPECT((answer = baggage_quote(BAGGAGE_STRING, TEXT(""), text, 1), is(&answer, BAGGAGE_ROOM, 0, 0, 0, 2)));
    EXPECT((answer = baggage_quote(3, TEXT(""), text, 0), is(&answer, BAGGAGE_CHOICE, 0, 0, 0, 0)));
    return 0;
}

/* Answers as text. */
static int tells(void) {
    char text[100];
    baggage_answer answer;
    uint8_t room[16];
    uint32_t k;
    answer = baggage_merge(BAGGAGE_FORM_ONE, BYTES(FIRST), BOTH, sizeof BOTH - 1, room, sizeof room);
    EXPECT(baggage_describe(&answer, text, sizeof text) > 0 && !strcmp(text, "context 1: CutBody at byte 6"));
    answer = baggage_merge(BAGGAGE_FORM_ONE, BYTES(FIRST), BYTES(SECOND), room, 3);
    EXPECT(baggage_describe(&answer, text, sizeof text) > 0 && !strcmp(text, "room too short: 9"));
    answer = baggage_update(BAGGAGE_FORM_ONE, TEXT(TABLE), NULL, 0, TEXT("id 7\nid x\n"), 99, room, sizeof room);
    EXPECT(baggage_describe(&answer, text, sizeof text) > 0 && !strcmp(text, "write line 2: no write"));
    EXPECT(baggage_describe(&answer, text, 5) == 22 && !strcmp(text, "writ"));
    answer = baggage_check_table(TEXT("x\n"));
    EXPECT(baggage_describe(&answer, text, sizeof text) > 0 && !strcmp(text, "table 0 line 1: Head"));
    for (k = 0; k <= BAGGAGE_PIECES; k++)
        EXPECT(strcmp(baggage_status_text(k), "?") != 0);
    EXPECT(!strcmp(baggage_status_text(14), "?") && !strcmp(baggage_code_text(BAGGAGE_FAULT, 10), "?") && !strcmp(baggage_code_text(BAGGAGE_FAULT, 9), "OutOfOrder"));
    EXPECT(!strcmp(baggage_code_text(BAGGAGE_TABLE, 7), "TooManySlots") && !strcmp(baggage_code_text(BAGGAGE_PIECES, 8), "TooManyBytes") && !*baggage_code_text(BAGGAGE_OK, 1));
    return 0;
}

/* A service's step: what it has, updated under its table, in place. */
static int step(const char *table, size_t table_len, uint8_t *context, size_t *size, const uint8_t *other, size_t other_len, const char *writes) {
    uint8_t room[512];
    baggage_span inputs[2];
    baggage_answer answer;
    inputs[0].bytes = context, inputs[0].length = *size;
    inputs[1].bytes = other, inputs[1].length = other_len;
    answer = baggage_update(BAGGAGE_FORM_ONE, table, table_len, inputs, 2, writes, strlen(writes), BAGGAGE_NO_BUDGET, room, sizeof room);
    if (answer.status != BAGGAGE_OK)
        return 0;
    memcpy(context, room, *size = answer.size);
    return 1;
}

static int reads(const uint8_t *context, size_t size, const char *path, uint32_t state, const char *expected) {
    char text[128];
    baggage_answer answer = baggage_read_field(TEXT(TABLE), context, size, path, strlen(path), text, sizeof text);
    return answer.status == BAGGAGE_OK && answer.code == state && answer.size == strlen(expected) && !memcmp(text, expected, answer.size);
}

/* A request's whole life: it begins at a gateway, is handed on to two services, is merged, cut for a partner, damaged, and read. */
static int lives(void) {
    uint8_t gateway[512], cart[512], pricing[512], proxy[512], partner[64], outside[512], damaged[BAGGAGE_EXTRACT_ROOM(512)];
    char header[700], both[1400], writes[64];
    size_t gateway_len, cart_len, pricing_len, proxy_len, letters, length;
    int lost;
    baggage_span values[2];
    baggage_answer answer;

    gateway_len = baggage_extract(gateway, NULL, 0, BAGGAGE_ABSENT_EMPTY, &lost);
    EXPECT(gateway_len == 0 && !lost);
    EXPECT(step(TEXT(TABLE), gateway, &gateway_len, NULL, 0, "id 4711\nhops \"gateway\":1\n"));
    letters = baggage_to_header(header, gateway, gateway_len);
    EXPECT(letters == baggage_header_letters(gateway_len));

    /* Two branches of it go to services that know a part each. */
    EXPECT(sizeof cart >= BAGGAGE_EXTRACT_ROOM(letters));
    cart_len = baggage_from_header(cart, header, letters, &lost);
    EXPECT(!lost && cart_len == gateway_len && memcmp(cart, gateway, cart_len) == 0);
    memcpy(writes, "tags ", 5);
    answer = baggage_quote(BAGGAGE_STRING, TEXT("a \"tag\"\n"), writes + 5, sizeof writes - 7);
    EXPECT(answer.status == BAGGAGE_OK);
    length = 5 + answer.size;
    memcpy(writes + length, "\n", 2);
    EXPECT(step(TEXT(TAGS_HOPS), cart, &cart_len, NULL, 0, writes) && step(TEXT(TAGS_HOPS), cart, &cart_len, NULL, 0, "hops \"cart\":3\n"));
    EXPECT(!step(TEXT(TAGS_HOPS), cart, &cart_len, NULL, 0, "id 1\n"));
    pricing_len = baggage_from_header(pricing, header, letters, &lost);
    EXPECT(!lost && step(TEXT(HOPS_LOAD), pricing, &pricing_len, NULL, 0, "load \"eur\":1299\n"));

    /* A proxy that knows nothing merges what comes back: two values in one line, or in two lines. */
    letters = baggage_to_header(both, cart, cart_len);
    values[0].bytes = (uint8_t *)both, values[0].length = letters;
    both[letters] = ',';
    length = baggage_to_header(both + letters + 1, pricing, pricing_len);
    values[1].bytes = (uint8_t *)both + letters + 1, values[1].length = length;
    EXPECT(sizeof proxy >= BAGGAGE_EXTRACT_ROOM(letters + 1 + length));
    proxy_len = baggage_from_header(proxy, both, letters + 1 + length, &lost);
    EXPECT(!lost);
    EXPECT(baggage_extract(damaged, values, 2, BAGGAGE_ABSENT_LOST, NULL) == proxy_len && memcmp(damaged, proxy, proxy_len) == 0);

    /* The gateway writes over its earlier count and reads all. */
    EXPECT(step(TEXT(TABLE), gateway, &gateway_len, proxy, proxy_len, "hops \"gateway\":2\ndebug on\n"));
    EXPECT(reads(gateway, gateway_len, "id", BAGGAGE_EXACT, "4711") && reads(gateway, gateway_len, "tags", BAGGAGE_EXACT, "{\"a \\\"tag\\\"\\x0a\"}"));
    EXPECT(reads(gateway, gateway_len, "hops", BAGGAGE_EXACT, "5{0x63617274:3,0x67617465776179:2}"));
    EXPECT(reads(gateway, gateway_len, "debug", BAGGAGE_EXACT, "on") && reads(gateway, gateway_len, "load", BAGGAGE_EXACT, "{\"eur\":1299}"));

    /* A partner gets as much as fits, and knows what may be missing. Only some of it may leave. */
    answer = baggage_trim(BAGGAGE_FORM_ONE, proxy, proxy_len, 30, partner, sizeof partner);
    EXPECT(answer.status == BAGGAGE_OK && answer.size <= 30 && reads(partner, answer.size, "id", BAGGAGE_EXACT, "4711"));
    EXPECT(reads(partner, answer.size, "load", BAGGAGE_PARTIAL, "{}"));
    values[0].bytes = gateway, values[0].length = gateway_len;
    answer = baggage_keep(BAGGAGE_FORM_ONE, BAGGAGE_CUT, TEXT(ID_DEBUG), values, 1, BAGGAGE_NO_BUDGET, outside, sizeof outside);
    EXPECT(answer.status == BAGGAGE_OK && reads(outside, answer.size, "id", BAGGAGE_EXACT, "4711") && reads(outside, answer.size, "tags", BAGGAGE_PARTIAL, "{}"));
    answer = baggage_keep(BAGGAGE_FORM_ONE, BAGGAGE_UNSAID, TEXT(ID_DEBUG), values, 1, BAGGAGE_NO_BUDGET, outside, sizeof outside);
    EXPECT(answer.status == BAGGAGE_OK && reads(outside, answer.size, "debug", BAGGAGE_EXACT, "on") && reads(outside, answer.size, "tags", BAGGAGE_EXACT, "{}"));
    answer = baggage_keep(BAGGAGE_FORM_ONE, 3, TEXT(NOTHING), values, 1, BAGGAGE_NO_BUDGET, outside, sizeof outside);
    EXPECT(is(&answer, BAGGAGE_CHOICE, 0, 0, 0, 0));

    /* A copy that is damaged on the way is lost, and says nothing false. */
    letters = baggage_to_header(header, gateway, gateway_len);
    length = baggage_from_header(damaged, header, letters - 3, &lost);
    EXPECT(lost && length == 1 && damaged[0] == 0 && step(TEXT(TABLE), gateway, &gateway_len, damaged, length, ""));
    EXPECT(reads(gateway, gateway_len, "id", BAGGAGE_PARTIAL, "4711"));
    EXPECT(baggage_from_binary(damaged, ID_SEVEN, sizeof ID_SEVEN, &lost) == sizeof ID_SEVEN && !lost);
    EXPECT(baggage_from_binary(damaged, ID_SEVEN, sizeof ID_SEVEN - 1, &lost) == 1 && lost && damaged[0] == 0);
    return 0;
}

/* Rooms with their lengths: where one is too short, the answer says how much is needed and nothing is written. */
static int bounds(void) {
    char text[64];
    uint8_t room[BAGGAGE_EXTRACT_ROOM(64)];
    static const uint8_t writer[8] = {0, 1, 2, 3, 4, 5, 6, 0xff};
    static const char hostile[] = "a\x1b\xc2\x9b\xe2\x80\xa8\xe2\x80\xae\xe2\x81\xa6\xc3\xa4\n", shown[] = "a\\x1b\\u009b\\u2028\\u202e\\u2066\xc3\xa4\\x0a";
    size_t letters;
    baggage_answer answer;
    memset(text, 'x', sizeof text);
    answer = baggage_to_header_into(BYTES(ID_SEVEN), text, 18);
    EXPECT(is(&answer, BAGGAGE_ROOM, 0, 0, 0, 19) && text[0] == 'x');
    answer = baggage_to_header_into(BYTES(ID_SEVEN), text, 19);
    EXPECT(is(&answer, BAGGAGE_OK, 0, 0, 0, 19) && memcmp(text, "AvgABQAAAAAH.Ktg3xwx", 20) == 0);
    answer = baggage_from_header_into(text, 19, room, BAGGAGE_EXTRACT_ROOM(19) - 1);
    EXPECT(is(&answer, BAGGAGE_ROOM, 0, 0, 0, BAGGAGE_EXTRACT_ROOM(19)));
    answer = baggage_from_header_into(text, 19, room, sizeof room);
    EXPECT(is(&answer, BAGGAGE_OK, BAGGAGE_EXACT, 0, 0, sizeof ID_SEVEN) && memcmp(room, ID_SEVEN, sizeof ID_SEVEN) == 0);
    answer = baggage_from_header_into(text, 18, room, sizeof room);
    EXPECT(is(&answer, BAGGAGE_OK, BAGGAGE_PARTIAL, 0, 0, 1) && room[0] == 0);
    answer = baggage_extract_into(NULL, 0, BAGGAGE_ABSENT_EMPTY, room, sizeof room);
    EXPECT(is(&answer, BAGGAGE_OK, BAGGAGE_EXACT, 0, 0, 0));
    answer = baggage_count_into(TEXT("hops"), writer, UINT64_MAX, text, 45);
    EXPECT(is(&answer, BAGGAGE_OK, 0, 0, 0, 45) && memcmp(text, "hops 0x00010203040506ff:18446744073709551615\n", 45) == 0);
    EXPECT((answer = baggage_count_into(TEXT("hops"), writer, 1, text, 25), is(&answer, BAGGAGE_ROOM, 0, 0, 0, 26)));
    answer = baggage_visible_into(TEXT(hostile), text, sizeof shown - 2);
    EXPECT(is(&answer, BAGGAGE_ROOM, 0, 0, 0, sizeof shown - 1) && text[0] == 'h');
    answer = baggage_visible_into(TEXT(hostile), text, sizeof text);
    EXPECT(is(&answer, BAGGAGE_OK, 0, 0, 0, sizeof shown - 1) && memcmp(text, shown, sizeof shown - 1) == 0);
    for (letters = 0; letters < 100; letters++) {
        size_t most = baggage_budget_of(letters);
        EXPECT(letters < 7 ? most == 0 : baggage_header_letters(most) <= letters && baggage_header_letters(most + 1) > letters);
    }
    return 0;
}

/* Carriers of bytes take form two, of which no part is taken for the whole; a reply says which request it answers. */
static int carries(void) {
    uint8_t wide[64], room[80];
    size_t k;
    int lost;
    baggage_answer answer = baggage_to_binary(BYTES(BOTH), wide, sizeof wide);
    static const char sent[] = " AvgABQAAAAAH.Ktg3xw\t,x";
    EXPECT(answer.status == BAGGAGE_OK && answer.size == sizeof BOTH + 12);
    for (k = 0; k < answer.size; k++) {
        EXPECT(baggage_from_binary(room, wide, k, &lost) == 1 && lost && room[0] == 0);
        EXPECT(baggage_from_binary(room, k ? wide : NULL, k, NULL) == 1);
    }
    EXPECT(baggage_from_binary(room, wide, answer.size, &lost) == sizeof BOTH && !lost && memcmp(room, BOTH, sizeof BOTH) == 0);
    EXPECT(baggage_from_binary(room, BYTES(BOTH), &lost) == sizeof BOTH && !lost);
    EXPECT((answer = baggage_from_binary_into(NULL, 0, room, sizeof room), is(&answer, BAGGAGE_OK, BAGGAGE_PARTIAL, 0, 0, 1)));
    EXPECT((answer = baggage_from_binary_into(BYTES(BOTH), room, sizeof BOTH), is(&answer, BAGGAGE_ROOM, 0, 0, 0, sizeof BOTH + 12)));
    EXPECT(baggage_check_of(TEXT(sent)) == sent + 14 && !baggage_check_of(TEXT("")) && !baggage_check_of(TEXT("AvgABQAAAAAH,x.Ktg3xw")) && !baggage_check_of(TEXT("x.Ktg3x=")));
    EXPECT(baggage_is_answer(TEXT("Ktg3xw"), TEXT(sent)) && !baggage_is_answer(TEXT("Ktg3xx"), TEXT(sent)) && !baggage_is_answer(TEXT("Ktg3xw,"), TEXT(sent)));
    EXPECT(!baggage_is_answer(NULL, 0, TEXT(sent)) && !baggage_is_answer(TEXT("Ktg3xw"), NULL, 0));
    return 0;
}

/* What strangers send. */
static int lets_in(void) {
    static uint8_t scratch[BAGGAGE_INGRESS_SCRATCH(8192, sizeof TABLE)];
    baggage_limits limits = BAGGAGE_LIMITS;
    uint8_t room[64];
    char header[128];
    baggage_span value;
    /* Beside the id: junk below it, a field that no table names, and one that is ill typed. */
    static const uint8_t junk[] = {2, 0xf8, 0, 5, 0, 0, 0, 0, 7, 4, 0xf1, 'j', 'u', 'n', 2, 0xf8, 3, 2, 0, 'x', 2, 0xf8, 9, 2, 0, 'y'};
    baggage_answer answer;
    value.bytes = (const uint8_t *)header, value.length = baggage_to_header(header, BYTES(ID_SEVEN));
    answer = baggage_ingress(&value, 1, TEXT(TABLE), &limits, scratch, sizeof scratch, room, sizeof room);
    EXPECT(is(&answer, BAGGAGE_OK, BAGGAGE_EXACT, 0, 0, sizeof ID_SEVEN) && memcmp(room, ID_SEVEN, sizeof ID_SEVEN) == 0);
    EXPECT((answer = baggage_ingress(&value, 1, TEXT(TABLE), &limits, scratch, sizeof scratch, room, 8), is(&answer, BAGGAGE_ROOM, 0, 0, 0, 9)));
    EXPECT((answer = baggage_ingress(&value, 1, TEXT(TABLE), &limits, scratch, 100, room, 64), answer.status == BAGGAGE_ROOM && answer.size > 100));
    EXPECT((answer = baggage_ingress(&value, 1, TEXT("x\n"), &limits, scratch, sizeof scratch, room, 64), is(&answer, BAGGAGE_TABLE, BAGGAGE_HEAD, 0, 1, 0)));
    EXPECT((answer = baggage_ingress(NULL, 0, TEXT(TABLE), &limits, scratch, sizeof scratch, room, 64), is(&answer, BAGGAGE_OK, BAGGAGE_EXACT, 0, 0, 0)));
    value.length = baggage_to_header(header, BYTES(junk));
    answer = baggage_ingress(&value, 1, TEXT(TABLE), &limits, scratch, sizeof scratch, room, sizeof room);
    EXPECT(is(&answer, BAGGAGE_OK, BAGGAGE_PARTIAL, 0, 0, sizeof ID_SEVEN + 1) && room[0] == 0 && memcmp(room + 1, ID_SEVEN, sizeof ID_SEVEN) == 0);
    limits.drops_partial = 1;
    answer = baggage_ingress(&value, 1, TEXT(TABLE), &limits, scratch, sizeof scratch, room, sizeof room);
    EXPECT(is(&answer, BAGGAGE_OK, BAGGAGE_EXACT, 0, 0, sizeof ID_SEVEN) && memcmp(room, ID_SEVEN, sizeof ID_SEVEN) == 0);
    value.length--;
    answer = baggage_ingress(&value, 1, TEXT(TABLE), &limits, scratch, sizeof scratch, room, sizeof room);
    EXPECT(is(&answer, BAGGAGE_OK, BAGGAGE_EXACT, 0, 0, 0));
    return 0;
}

int main(void) { return forwards() || writes_and_reads() || looks() || tells() || lives() || bounds() || carries() || lets_in(); }
