package terncommode

/*
#include <stdlib.h>
#include <baggage.h>

// No pointer that is handed in is null, not even one to nothing.
static uint8_t terncommode_nothing[1];

static const uint8_t *terncommode_bytes(_GoString_ text) {
	return _GoStringLen(text) ? (const uint8_t *)_GoStringPtr(text) : terncommode_nothing;
}

static const char *terncommode_text(_GoString_ text) { return (const char *)terncommode_bytes(text); }

static uint8_t *terncommode_room(uint8_t *room) { return room ? room : terncommode_nothing; }

// The inputs stand one after another, since an array of Go's pointers can't be handed in.
typedef struct terncommode_spans {
	baggage_span few[16];
	baggage_span *all;
} terncommode_spans;

static int terncommode_cut_up(terncommode_spans *spans, _GoString_ inputs, const size_t *lengths, size_t count) {
	const uint8_t *at = terncommode_bytes(inputs);
	size_t k;
	spans->all = count <= 16 ? spans->few : malloc(count * sizeof *spans->all);
	if (!spans->all)
		return 0;
	for (k = 0; k < count; k++) {
		spans->all[k].bytes = at;
		spans->all[k].length = lengths[k];
		at += lengths[k];
	}
	return 1;
}

static void terncommode_free(terncommode_spans *spans) {
	if (spans->all != spans->few)
		free(spans->all);
}

static baggage_answer terncommode_join(uint32_t form, _GoString_ inputs, const size_t *lengths, size_t count, uint64_t budget, uint8_t *room,
                                       size_t room_len) {
	baggage_answer answer = {BAGGAGE_MEMORY, 0, 0, 0, 0};
	terncommode_spans spans;
	if (terncommode_cut_up(&spans, inputs, lengths, count)) {
		answer = baggage_join(form, spans.all, count, budget, terncommode_room(room), room_len);
		terncommode_free(&spans);
	}
	return answer;
}

// The merge of inputs of which those that are no contexts count as lost.
static baggage_answer terncommode_read(_GoString_ inputs, const size_t *lengths, size_t count, uint8_t *room, size_t room_len) {
	baggage_answer answer = {BAGGAGE_MEMORY, 0, 0, 0, 0};
	terncommode_spans spans;
	size_t k;
	if (terncommode_cut_up(&spans, inputs, lengths, count)) {
		for (k = 0; k < count; k++)
			if (baggage_check(spans.all[k].bytes, spans.all[k].length).status != BAGGAGE_OK) {
				spans.all[k].bytes = BAGGAGE_LOST;
				spans.all[k].length = sizeof BAGGAGE_LOST;
			}
		answer = baggage_join(BAGGAGE_FORM_ONE, spans.all, count, BAGGAGE_NO_BUDGET, terncommode_room(room), room_len);
		terncommode_free(&spans);
	}
	return answer;
}

static baggage_answer terncommode_update(uint32_t form, _GoString_ table, _GoString_ inputs, const size_t *lengths, size_t count, _GoString_ writes,
                                         uint64_t budget, uint8_t *room, size_t room_len) {
	baggage_answer answer = {BAGGAGE_MEMORY, 0, 0, 0, 0};
	terncommode_spans spans;
	if (terncommode_cut_up(&spans, inputs, lengths, count)) {
		answer = baggage_update(form, terncommode_text(table), _GoStringLen(table), spans.all, count, terncommode_text(writes), _GoStringLen(writes),
		                        budget, terncommode_room(room), room_len);
		terncommode_free(&spans);
	}
	return answer;
}

static baggage_answer terncommode_keep(uint32_t form, uint32_t others, _GoString_ table, _GoString_ inputs, const size_t *lengths, size_t count,
                                       uint64_t budget, uint8_t *room, size_t room_len) {
	baggage_answer answer = {BAGGAGE_MEMORY, 0, 0, 0, 0};
	terncommode_spans spans;
	if (terncommode_cut_up(&spans, inputs, lengths, count)) {
		answer = baggage_keep(form, others, terncommode_text(table), _GoStringLen(table), spans.all, count, budget, terncommode_room(room), room_len);
		terncommode_free(&spans);
	}
	return answer;
}

static baggage_answer terncommode_report(_GoString_ table, _GoString_ context, uint8_t *room, size_t room_len) {
	return baggage_report(BAGGAGE_TEXT, terncommode_text(table), _GoStringLen(table), terncommode_bytes(context), _GoStringLen(context),
	                      (char *)terncommode_room(room), room_len);
}

static baggage_answer terncommode_read_field(_GoString_ table, _GoString_ context, _GoString_ name, uint8_t *room, size_t room_len) {
	return baggage_read_field(terncommode_text(table), _GoStringLen(table), terncommode_bytes(context), _GoStringLen(context), terncommode_text(name),
	                          _GoStringLen(name), (char *)terncommode_room(room), room_len);
}

static baggage_answer terncommode_places(_GoString_ table, _GoString_ context, baggage_place *places, size_t places_len) {
	baggage_place nowhere;
	return baggage_places(terncommode_text(table), _GoStringLen(table), terncommode_bytes(context), _GoStringLen(context), places ? places : &nowhere,
	                      places_len);
}

static baggage_answer terncommode_check_table(_GoString_ table) {
	return baggage_check_table(terncommode_text(table), _GoStringLen(table));
}
*/
import "C"

import (
	"fmt"
	"math"
	"strings"
	"unsafe"
)

const major = 2

func init() {
	if version := int(C.baggage_version()); version/10000 != major {
		panic(fmt.Sprintf("terncommode: the library has version %d.%d, and version %d is wanted", version/10000, version/100%100, major))
	}
}

// An answer is that of a call of the library.
type answer struct {
	status, code          uint32
	context, offset, size int
}

func answerOf(a C.baggage_answer) answer {
	return answer{uint32(a.status), uint32(a.code), int(a.context), int(a.offset), int(a.size)}
}

// inputs are the bytes of contexts, one after another, with their lengths.
type inputs struct {
	bytes   string
	lengths []C.size_t
}

func inputsOf(texts ...string) inputs {
	lengths := make([]C.size_t, len(texts), len(texts)+1)
	for k, text := range texts {
		lengths[k] = C.size_t(len(text))
	}
	if len(texts) == 1 {
		return inputs{texts[0], lengths}
	}
	return inputs{strings.Join(texts, ""), lengths}
}

func inputsOfContexts(contexts []Context) inputs {
	texts := make([]string, len(contexts))
	for k, c := range contexts {
		texts[k] = c.closed().b
	}
	return inputsOf(texts...)
}

// inputsOfOpen are the contexts without the marker that open ones are joined
// with.
func inputsOfOpen(contexts []Context) inputs {
	texts := make([]string, len(contexts))
	for k, c := range contexts {
		texts[k] = c.b
	}
	return inputsOf(texts...)
}

// first is the address of the first length, or of one that isn't there.
func (in inputs) first() *C.size_t {
	return &in.lengths[:1][0]
}

func (in inputs) count() C.size_t {
	return C.size_t(len(in.lengths))
}

// filled gives what a call writes into a room that is long enough, and its
// answer. The first room has this size.
func filled(size int, call func(room *C.uint8_t, size C.size_t) C.baggage_answer) (string, answer) {
	return filledWithin(math.MaxInt, size, call)
}

// filledWithin is filled with a room of at most this limit. Where that is too
// short the answer's status is BAGGAGE_ROOM, with the limit in place of the
// offset.
func filledWithin(limit, size int, call func(room *C.uint8_t, size C.size_t) C.baggage_answer) (string, answer) {
	if limit < 0 {
		limit = 0
	}
	if size > limit {
		size = limit
	}
	for {
		room := make([]byte, size, size+1)
		got := answerOf(call((*C.uint8_t)(unsafe.Pointer(&room[:1][0])), C.size_t(size)))
		switch got.status {
		case C.BAGGAGE_OK:
			return string(room[:got.size]), got
		case C.BAGGAGE_ROOM:
			if got.size > limit {
				got.offset = limit
				return "", got
			}
			size = got.size
		case C.BAGGAGE_MEMORY:
			panic("terncommode: out of memory")
		default:
			return "", got
		}
	}
}

// least is the budget, or the least one of the form.
func least(form Form, budget uint64) C.uint64_t {
	smallest := uint64(1)
	if form == FormTwo {
		smallest = 13
	}
	if budget < smallest {
		budget = smallest
	}
	return C.uint64_t(budget)
}

func join(form Form, in inputs, budget uint64) (string, error) {
	joined, got := filled(len(in.bytes)+12, func(room *C.uint8_t, size C.size_t) C.baggage_answer {
		return C.terncommode_join(C.uint32_t(form), in.bytes, in.first(), in.count(), least(form, budget), room, size)
	})
	return joined, got.err()
}

// read is the merge of what came as bytes. What can't be read is lost in it.
func read(in inputs) string {
	merged, got := filled(len(in.bytes)+12, func(room *C.uint8_t, size C.size_t) C.baggage_answer {
		return C.terncommode_read(in.bytes, in.first(), in.count(), room, size)
	})
	return sure(merged, got.err())
}

func update(form Form, table string, in inputs, writes string, budget uint64) (string, error) {
	updated, got := filled(len(in.bytes)+len(writes)+64, func(room *C.uint8_t, size C.size_t) C.baggage_answer {
		return C.terncommode_update(C.uint32_t(form), table, in.bytes, in.first(), in.count(), writes, least(form, budget), room, size)
	})
	return updated, got.err()
}

func keep(form Form, others Others, table string, in inputs, budget uint64) (string, error) {
	kept, got := filled(len(in.bytes)+64, func(room *C.uint8_t, size C.size_t) C.baggage_answer {
		return C.terncommode_keep(C.uint32_t(form), C.uint32_t(others), table, in.bytes, in.first(), in.count(), least(form, budget), room, size)
	})
	return kept, got.err()
}

func report(limit int, table, context string) (string, error) {
	text, got := filledWithin(limit, 4*len(context)+256, func(room *C.uint8_t, size C.size_t) C.baggage_answer {
		return C.terncommode_report(table, context, room, size)
	})
	return text, got.err()
}

func readField(limit int, table, context, path string) (text string, exact bool, err error) {
	text, got := filledWithin(limit, 2*len(context)+64, func(room *C.uint8_t, size C.size_t) C.baggage_answer {
		return C.terncommode_read_field(table, context, path, room, size)
	})
	return text, got.code == C.BAGGAGE_EXACT, got.err()
}

func places(table string, slots int, context string) ([]Place, error) {
	found := make([]C.baggage_place, slots, slots+1)
	got := answerOf(C.terncommode_places(table, context, &found[:1][0], C.size_t(slots)))
	if got.status == C.BAGGAGE_MEMORY {
		panic("terncommode: out of memory")
	}
	if err := got.err(); err != nil {
		return nil, err
	}
	places := make([]Place, got.size)
	for k := range places {
		places[k] = Place{int(found[k].offset), int(found[k].length), State(found[k].state)}
	}
	return places, nil
}

func checkTable(table string) (slots int, err error) {
	got := answerOf(C.terncommode_check_table(table))
	if got.status == C.BAGGAGE_MEMORY {
		panic("terncommode: out of memory")
	}
	return got.size, got.err()
}

// err is what a refusal says; nil where the call was done.
func (a answer) err() error {
	switch a.status {
	case C.BAGGAGE_OK:
		return nil
	case C.BAGGAGE_FAULT:
		return Fault{a.context, a.offset, Code(a.code)}
	case C.BAGGAGE_TYPE:
		return IllTyped{a.context, a.offset}
	case C.BAGGAGE_FIELD:
		return NoField{Line: a.offset}
	case C.BAGGAGE_WRITE:
		return BadWrite{Line: a.offset}
	case C.BAGGAGE_ROOM:
		return TooLong{Size: a.size, Limit: a.offset}
	case C.BAGGAGE_TABLE:
		return BadTable{a.offset, TableCode(a.code)}
	case C.BAGGAGE_FORM:
		panic("terncommode: a form is FormOne or FormTwo")
	case C.BAGGAGE_CHOICE:
		panic("terncommode: what is kept of others is OthersCut or OthersUnsaid")
	}
	panic(fmt.Sprintf("terncommode: the library answers with status %d", a.status))
}
