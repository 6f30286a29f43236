// Package parts reads the atoms of a slot as values. The code that
// tools/accessors writes stands over it.
//
// What a slot says is read only where the library has said that it is typed. On
// other atoms the functions here give some value and no error.
package parts

import (
	"math/big"

	"terncommode"
)

// Slots are where the slots of a bag stand in a context.
type Slots struct {
	bytes  []byte
	places []terncommode.Place
}

// Of finds the slots of a bag by one pass over a context.
func Of(bag terncommode.Bag, c terncommode.Context) Slots {
	return Slots{c.Bytes(), bag.Places(c)}
}

// Read is what a slot says, whose headers below have a level. The error is an
// IllTyped.
func Read[T any](s Slots, slot, level int, tell func(Part) T) (terncommode.Field[T], error) {
	place := s.places[slot]
	if place.State == terncommode.Misspelled {
		return terncommode.Field[T]{}, terncommode.IllTyped{Offset: place.Offset}
	}
	isTwo := len(s.bytes) >= 4 && string(s.bytes[:4]) == "\xff\xff\xff\x02"
	value := tell(Part{s.bytes[place.Offset : place.Offset+place.Length], isTwo, level})
	return terncommode.Field[T]{Value: value, Exact: place.State == terncommode.Exact}, nil
}

// A Part is the atoms that stand under a header, in which headers have a level
// and higher ones.
type Part struct {
	bytes []byte
	isTwo bool
	level int
}

// next takes an atom off.
func (p *Part) next() (atom []byte, found bool) {
	if len(p.bytes) == 0 {
		return nil, false
	}
	rest := Text(p.bytes)
	length := uint64(0)
	if p.isTwo {
		length = rest.varint()
	} else {
		length = rest.base128()
	}
	atom = rest.take(length)
	p.bytes = rest
	return atom, true
}

func isHeader(atom []byte) bool {
	return len(atom) > 0 && atom[0] != 0
}

func levelOf(header []byte) int {
	return int(0xf8-header[0]&0xf8) / 8
}

func isKeyed(header []byte) bool {
	return header[0]&1 == 1
}

// data are the payloads of the data before the first header.
func (p Part) data() []Text {
	var payloads []Text
	for {
		atom, found := p.next()
		if !found || isHeader(atom) {
			return payloads
		}
		if len(atom) > 0 {
			payloads = append(payloads, Text(atom[1:]))
		}
	}
}

// under calls do for each header of the part's level and what stands under it.
func (p Part) under(do func(header []byte, under Part)) {
	for {
		header, found := p.next()
		if !found {
			return
		}
		if isHeader(header) && levelOf(header) == p.level {
			do(header, p.untilNext())
		}
	}
}

// untilNext is what stands before the next header of the part's level, which is
// passed over.
func (p *Part) untilNext() Part {
	from := p.bytes
	for {
		before := p.bytes
		atom, found := p.next()
		if !found || isHeader(atom) && levelOf(atom) <= p.level {
			p.bytes = before
			return Part{from[:len(from)-len(before)], p.isTwo, p.level + 1}
		}
	}
}

// Field is what stands under the header with a number.
func (p Part) Field(number uint64) Part {
	found := Part{nil, p.isTwo, p.level + 1}
	p.under(func(header []byte, under Part) {
		body := Text(header[1:])
		if !isKeyed(header) && body.varint() == number {
			found = under
		}
	})
	return found
}

// Text is a spelling, or what is left of one.
type Text []byte

func (t *Text) take(length uint64) []byte {
	if length > uint64(len(*t)) {
		length = uint64(len(*t))
	}
	taken := (*t)[:length]
	*t = (*t)[length:]
	return taken
}

func (t *Text) byte() byte {
	if len(*t) == 0 {
		return 0
	}
	return t.take(1)[0]
}

func (t *Text) base128() uint64 {
	length := uint64(0)
	for shift := 0; shift < 21; shift += 7 {
		group := t.byte()
		length |= uint64(group&0x7f) << shift
		if group < 0x80 {
			break
		}
	}
	return length
}

// onesOf is with how many ones a byte begins.
func onesOf(first byte) int {
	ones := 0
	for ones < 8 && first&(0x80>>ones) != 0 {
		ones++
	}
	return ones
}

func bigEndian(number uint64, bytes []byte, flip byte) uint64 {
	for _, each := range bytes {
		number = number<<8 | uint64(each^flip)
	}
	return number
}

func (t *Text) varint() uint64 {
	first := t.byte()
	more := onesOf(first)
	return bigEndian(uint64(first)&(0x7f>>more), t.take(uint64(more)), 0)
}

func (t *Text) signed() int64 {
	first, flip := t.byte(), byte(0)
	if first < 0x80 {
		flip = 0xff
	}
	ones := onesOf(first ^ flip)
	more := ones - 1
	if ones == 8 {
		more = 8
	}
	number := int64(bigEndian(uint64(first^flip)&(0x7f>>ones), t.take(uint64(more)), flip))
	if flip != 0 {
		return -1 - number
	}
	return number
}

// escaped is what stands before `00 01`, in which ff stands after each other
// zero byte.
func (t *Text) escaped() []byte {
	bytes := []byte{}
	for len(*t) > 0 {
		each := t.byte()
		if each == 0 && t.byte() == 1 {
			break
		}
		bytes = append(bytes, each)
	}
	return bytes
}

// A Kind takes a value off a spelling: all of it, or inside a struct what is its
// own.
type Kind[T any] func(rest *Text, isInside bool) T

// The kinds of one word. Of a sint word the kind is that of the int word.

func Bool(rest *Text, _ bool) bool      { return rest.byte() == 1 }
func Int32(rest *Text, _ bool) int32    { return int32(rest.signed()) }
func Int64(rest *Text, _ bool) int64    { return rest.signed() }
func Uint32(rest *Text, _ bool) uint32  { return uint32(rest.varint()) }
func Uint64(rest *Text, _ bool) uint64  { return rest.varint() }
func Fixed32(rest *Text, _ bool) uint32 { return uint32(bigEndian(0, rest.take(4), 0)) }
func Fixed64(rest *Text, _ bool) uint64 { return bigEndian(0, rest.take(8), 0) }

func Sfixed32(rest *Text, _ bool) int32 { return int32(bigEndian(0, rest.take(4), 0) ^ 1<<31) }
func Sfixed64(rest *Text, _ bool) int64 { return int64(bigEndian(0, rest.take(8), 0) ^ 1<<63) }

func Bytes(rest *Text, isInside bool) []byte {
	if isInside {
		return rest.escaped()
	}
	return append([]byte{}, rest.take(uint64(len(*rest)))...)
}

func String(rest *Text, isInside bool) string { return string(Bytes(rest, isInside)) }

// Taint reads whether a taint is on.
func Taint(p Part) bool {
	return len(p.data()) > 0
}

// Least reads a scalar: nil where it is absent.
func Least[T any](kind Kind[T]) func(Part) *T {
	return func(p Part) *T {
		payloads := p.data()
		if len(payloads) == 0 {
			return nil
		}
		value := kind(&payloads[0], false)
		return &value
	}
}

// Greatest reads a greatest: nil where it is absent.
func Greatest[T any](kind Kind[T]) func(Part) *T {
	return func(p Part) *T {
		payloads := p.data()
		if len(payloads) == 0 {
			return nil
		}
		value := kind(&payloads[len(payloads)-1], false)
		return &value
	}
}

// Set reads the elements of a set, in order.
func Set[T any](kind Kind[T]) func(Part) []T {
	return func(p Part) []T {
		payloads := p.data()
		values := make([]T, len(payloads))
		for k := range payloads {
			values[k] = kind(&payloads[k], false)
		}
		return values
	}
}

// Counts are the counts of a counter's writers, which are any bytes.
type Counts map[string]uint64

// Total is their sum, which may pass 2^64.
func (c Counts) Total() *big.Int {
	total := new(big.Int)
	for _, count := range c {
		total.Add(total, new(big.Int).SetUint64(count))
	}
	return total
}

// Counter reads a counter.
func Counter(p Part) Counts {
	counts := Counts{}
	p.under(func(header []byte, under Part) {
		if isKeyed(header) {
			count := uint64(0)
			if payloads := under.data(); len(payloads) > 0 {
				count = payloads[len(payloads)-1].varint()
			}
			counts[string(header[1:])] = count
		}
	})
	return counts
}

// Map reads the values of a map by their keys. Keys of the kind bytes are read
// by String, so that they can be those of a map.
func Map[K comparable, V any](key Kind[K], tell func(Part) V) func(Part) map[K]V {
	return func(p Part) map[K]V {
		values := map[K]V{}
		p.under(func(header []byte, under Part) {
			if isKeyed(header) {
				body := Text(header[1:])
				values[key(&body, false)] = tell(under)
			}
		})
		return values
	}
}
