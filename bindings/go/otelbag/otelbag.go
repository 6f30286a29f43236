// Package otelbag carries contexts of baggage beside OpenTelemetry: its
// Propagator is a propagation.TextMapPropagator.
//
//	otel.SetTextMapPropagator(propagation.NewCompositeTextMapPropagator(
//		propagation.TraceContext{}, propagation.Baggage{}, otelbag.New(terncommode.Lost(), otelbag.Header|otelbag.Member)))
//
// In a composite it stands after propagation.Baggage. Before it its member is
// written over, so that the next service has Lost.
//
// OpenTelemetry carries contexts forward alone: what the services below say
// doesn't come back this way. Where replies matter, terncommode.Handler and
// terncommode.Transport, or grpcbag, stand beside it.
package otelbag

import (
	"context"
	"net/http"
	"reflect"
	"strings"

	"go.opentelemetry.io/otel/baggage"
	"go.opentelemetry.io/otel/propagation"

	"terncommode"
	"terncommode/internal/members"
)

// Ways are how a context travels: in one of them or in both.
type Ways int

// The ways.
const (
	// Header is a header of its own. Services that don't know it drop it.
	Header Ways = 1 << iota

	// Member is one member of the header baggage. Every service with
	// OpenTelemetry's propagator of baggage hands it on untouched. Where the
	// others leave it no place it is left out, so readers need Lost as absent.
	Member
)

const (
	headerName  = "terncommode"
	baggageName = "baggage"
	memberName  = "terncommode"
	reader      = "terncommode/otelbag"

	// What SDKs allow a header and a member. They drop the whole header beyond
	// it.
	headerMembers = 180
	headerLetters = 8192
	memberLetters = 4096
)

// A Propagator carries the context that a context.Context holds. It reads and
// writes the text of the header baggage, and not what OpenTelemetry parsed of
// it; so a malformed member of somebody else's doesn't cost the context.
//
// What it has read is no member of OpenTelemetry's own baggage afterwards, so
// that propagation.Baggage doesn't send an old member on. Where that hasn't read
// the carrier before, it may do so later: then the member is taken out of the
// carrier too.
type Propagator struct {
	absent terncommode.Context
	ways   Ways
	isEdge bool
}

var _ propagation.TextMapPropagator = Propagator{}

// New gives a propagator. Absent is the context of a request that carries none:
// terncommode.Context{} where requests begin, and terncommode.Lost() inside.
// Where a context may come as a Member it has to be terncommode.Lost(): a member
// that was left out would else be read as if nothing had been said. It trusts
// who sends; Edge is for requests from outside.
func New(absent terncommode.Context, ways Ways) Propagator {
	return Propagator{absent: absent, ways: ways}
}

// Edge gives a propagator for services that strangers call: each request begins
// with the empty context, and what the carrier says isn't read. It is taken out
// of OpenTelemetry's baggage, and out of the carrier where that can be set.
func Edge(ways Ways) Propagator {
	return Propagator{ways: ways, isEdge: true}
}

// Extract gives a context.Context that holds what came: the join, where it came
// both ways. A key that a carrier has twice is joined where both values can be
// had, and else Lost: OpenTelemetry's carriers give the first value of a key
// alone, unless they have a method Values as propagation.HeaderCarrier has.
func (p Propagator) Extract(ctx context.Context, carrier propagation.TextMapCarrier) context.Context {
	last, isKnown := ctx.Value(carrierKey{}).(propagation.TextMapCarrier)
	read := baggage.FromContext(ctx)
	ctx = baggage.ContextWithBaggage(ctx, p.others(read))
	if isKnown && isSame(last, carrier) {
		return ctx
	}
	c, isFound := p.arrived(carrier)
	if p.isEdge || !hasRead(read, carrier) {
		p.hide(carrier)
	}
	return terncommode.Arrived(context.WithValue(ctx, carrierKey{}, carrier), reader, c, isFound)
}

// others is OpenTelemetry's baggage without the member; at an edge also without
// those that a later service could read as it.
func (p Propagator) others(read baggage.Baggage) baggage.Baggage {
	if p.isEdge {
		for _, member := range read.Members() {
			if members.IsOwn(member.Key()) {
				read = read.DeleteMember(member.Key())
			}
		}
	}
	return read.DeleteMember(memberName)
}

// hasRead is whether OpenTelemetry has read the member of the carrier.
func hasRead(read baggage.Baggage, carrier propagation.TextMapCarrier) bool {
	for _, member := range membersOf(carrier) {
		if value, isOwn := ownValue(member); isOwn && strings.Trim(value, " \t") == read.Member(memberName).Value() {
			return true
		}
	}
	return false
}

// carrierKey is the key of the carrier that ctx was extracted from, out of which
// the member is taken: whoever extracts again from it is given the same.
type carrierKey struct{}

// isSame is whether two carriers are one, where that can be told.
func isSame(a, b propagation.TextMapCarrier) bool {
	first, second := reflect.ValueOf(a), reflect.ValueOf(b)
	if first.Type() != second.Type() {
		return false
	}
	switch first.Kind() {
	case reflect.Map, reflect.Pointer:
		return first.Pointer() == second.Pointer()
	}
	return false
}

// arrived is the context that came, or what stands for it where none was found.
func (p Propagator) arrived(carrier propagation.TextMapCarrier) (c terncommode.Context, isFound bool) {
	if p.isEdge {
		return terncommode.Context{}, false
	}
	var found []terncommode.Context
	if p.ways&Header != 0 {
		for _, value := range values(carrier, headerName) {
			found = append(found, terncommode.FromHeader(value))
		}
	}
	if p.ways&Member != 0 {
		for _, member := range membersOf(carrier) {
			if value, isOwn := ownValue(member); isOwn {
				found = append(found, terncommode.FromHeader(value))
			}
		}
	}
	if len(found) == 0 {
		return p.absent, false
	}
	return terncommode.Join(found...), true
}

// hide takes the member out of the carrier, and at an edge the header too.
func (p Propagator) hide(carrier propagation.TextMapCarrier) {
	others := foreign(carrier)
	if p.isEdge {
		others, _ = members.Others(others)
	}
	if len(others) < len(membersOf(carrier)) {
		replace(carrier, baggageName, strings.Join(others, ","))
	}
	if p.isEdge && len(values(carrier, headerName)) > 0 {
		replace(carrier, headerName, "")
	}
}

// replace sets the value of a name in a carrier, in whatever case it has it. An
// empty value is none, where the carrier can do without.
func replace(carrier propagation.TextMapCarrier, name, value string) {
	for _, key := range carrier.Keys() {
		if !strings.EqualFold(key, name) {
			continue
		}
		switch maps := carrier.(type) {
		case propagation.HeaderCarrier:
			delete(maps, key)
		case MetadataCarrier:
			delete(maps, key)
		default:
			carrier.Set(key, "")
		}
	}
	if value != "" {
		carrier.Set(name, value)
	}
}

// Inject sets what ctx holds, in place of what the carrier has of it, cut to
// terncommode.RequestBudget. Where the foreign members of the header baggage
// leave no place for a member, they stay alone.
func (p Propagator) Inject(ctx context.Context, carrier propagation.TextMapCarrier) {
	c := terncommode.From(ctx).Cut(terncommode.RequestBudget)
	if p.ways&Header != 0 {
		carrier.Set(headerName, terncommode.ToHeader(c))
	}
	if p.ways&Member != 0 {
		carrier.Set(baggageName, withOwn(c, foreign(carrier)))
	}
}

// foreign are the members of the header baggage that aren't this package's.
func foreign(carrier propagation.TextMapCarrier) []string {
	var found []string
	for _, member := range membersOf(carrier) {
		if _, isOwn := ownValue(member); !isOwn {
			found = append(found, member)
		}
	}
	return found
}

// withOwn is the text of the header baggage: a member with what fits of a
// context, before the others; or the others alone, where no member fits.
func withOwn(c terncommode.Context, others []string) string {
	rest := strings.Join(others, ",")
	text := memberName + "=" + terncommode.ToHeader(c.Cut(room(len(rest))))
	if rest != "" {
		text += "," + rest
	}
	if len(text) > headerLetters || len(others) >= headerMembers {
		return rest
	}
	return text
}

// room is how many bytes a context may have beside other members.
func room(others int) uint64 {
	letters := headerLetters - others - len(",")
	if letters > memberLetters {
		letters = memberLetters
	}
	letters -= len(memberName) + len("=.CHECK_")
	if letters < 0 {
		return 0
	}
	return uint64(letters) * 3 / 4
}

// Fields are the names of the headers that are set.
func (p Propagator) Fields() []string {
	var names []string
	if p.ways&Header != 0 {
		names = append(names, headerName)
	}
	if p.ways&Member != 0 {
		names = append(names, baggageName)
	}
	return names
}

// A valuesGetter is a carrier that has all values of a key, as later versions of
// OpenTelemetry have it.
type valuesGetter interface {
	Values(key string) []string
}

// damaged stands for a value that can't be had. Neither as a header nor as a
// member it says a context.
const damaged = memberName + "=?"

// values are those that a carrier has for a name, in whatever case.
func values(carrier propagation.TextMapCarrier, name string) []string {
	if headers, isHeader := carrier.(propagation.HeaderCarrier); isHeader {
		return valuesOf(http.Header(headers), name)
	}
	getter, hasValues := carrier.(valuesGetter)
	var found []string
	seen := map[string]bool{}
	for _, key := range carrier.Keys() {
		switch {
		case !strings.EqualFold(key, name):
		case seen[key]:
			found = append(found, damaged)
		case hasValues:
			found = append(found, getter.Values(key)...)
		default:
			found = append(found, carrier.Get(key))
		}
		seen[key] = seen[key] || strings.EqualFold(key, name) && !hasValues
	}
	if value := carrier.Get(name); len(found) == 0 && value != "" {
		return []string{value}
	}
	return found
}

func valuesOf(headers map[string][]string, name string) []string {
	var found []string
	for key, values := range headers {
		if strings.EqualFold(key, name) {
			found = append(found, values...)
		}
	}
	return found
}

// A MetadataCarrier is a carrier over the metadata of gRPC, all of whose values
// are read: otelbag.MetadataCarrier(md).
type MetadataCarrier map[string][]string

// Get is the first value of a key.
func (c MetadataCarrier) Get(key string) string {
	if values := c.Values(key); len(values) > 0 {
		return values[0]
	}
	return ""
}

// Values are all values of a key.
func (c MetadataCarrier) Values(key string) []string {
	return c[strings.ToLower(key)]
}

// Set sets the one value of a key.
func (c MetadataCarrier) Set(key, value string) {
	c[strings.ToLower(key)] = []string{value}
}

// Keys are the keys.
func (c MetadataCarrier) Keys() []string {
	keys := make([]string, 0, len(c))
	for key := range c {
		keys = append(keys, key)
	}
	return keys
}

// membersOf are those of the header baggage, as texts.
func membersOf(carrier propagation.TextMapCarrier) []string {
	var found []string
	for _, value := range values(carrier, baggageName) {
		for _, member := range strings.Split(value, ",") {
			if member = strings.Trim(member, " \t"); member != "" {
				found = append(found, member)
			}
		}
	}
	return found
}

// ownValue is the value of a member, and whether the member is this package's.
// Properties after it aren't looked at.
func ownValue(member string) (value string, isOwn bool) {
	name, value, _ := strings.Cut(member, "=")
	value, _, _ = strings.Cut(value, ";")
	return value, strings.Trim(name, " \t") == memberName
}
