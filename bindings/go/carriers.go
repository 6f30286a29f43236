package terncommode

import (
	"encoding/base64"
	"encoding/binary"
	"hash/crc32"
	"net/http"
	"strings"

	"terncommode/internal/members"
)

const (
	// Header is the name of the header that carries a context.
	Header = "Terncommode"

	// ForHeader is the name of the header of a reply that says which context it
	// answers, by the check of the value that came with the request.
	ForHeader = "Terncommode-For"
)

// How many bytes a context may have that is sent, so that it fits beside an
// application's own headers through proxies and servers as they come.
const (
	RequestBudget uint64 = 3000 // with a request of HTTP, and as a member of the header baggage
	ReplyBudget   uint64 = 2000 // back with a reply of HTTP
	GRPCBudget    uint64 = 4000 // in the metadata or the trailer of gRPC
)

const (
	baggageHeader = "Baggage"
	checkLetters  = 6
)

var letters = base64.RawURLEncoding.Strict()

// ToHeader is the text of a context, DATA.CHECK: base64url of its bytes without
// padding, a dot, and their CRC-32 in six letters. It has only letters, digits,
// '-', '_' and '.'.
func ToHeader(c Context) string {
	data := c.Bytes()
	return letters.EncodeToString(data) + "." + checkOf(data)
}

func checkOf(data []byte) string {
	var sum [4]byte
	binary.BigEndian.PutUint32(sum[:], crc32.ChecksumIEEE(data))
	return letters.EncodeToString(sum[:])
}

// FromHeader is the context that the value of a header says, the merge where it
// has several with commas between. What can't be read is Lost.
func FromHeader(value string) Context {
	return fromParts(partsOf([]string{value}))
}

// partsOf are the parts of values, each once.
func partsOf(values []string) []string {
	if len(values) == 1 && strings.IndexByte(values[0], ',') < 0 {
		return []string{strings.Trim(values[0], " \t")}
	}
	var parts []string
	seen := map[string]bool{}
	for _, part := range strings.Split(strings.Join(values, ","), ",") {
		if part = strings.Trim(part, " \t"); !seen[part] {
			seen[part] = true
			parts = append(parts, part)
		}
	}
	return parts
}

// fromParts is the merge of what the parts say.
func fromParts(parts []string) Context {
	found := make([]string, 0, len(parts))
	isLost := false
	for _, part := range parts {
		data, isRead := fromPart(part)
		if isRead {
			found = append(found, data)
		}
		isLost = isLost || !isRead
	}
	if isLost {
		found = append(found, Lost().b)
	}
	return Context{b: read(inputsOf(found...))}
}

// fromPart is the bytes that a part says.
func fromPart(part string) (data string, isRead bool) {
	text, check, hasDot := strings.Cut(part, ".")
	// The decoder passes over line feeds and carriage returns.
	if !hasDot || strings.ContainsAny(text, "\r\n") {
		return "", false
	}
	decoded, err := letters.DecodeString(text)
	return string(decoded), err == nil && checkOf(decoded) == check
}

// ToBinary is the bytes of a context for a carrier that keeps bytes and their
// length, as gRPC, Kafka and AMQP: those of form two, of which no front is a
// context.
func ToBinary(c Context) []byte {
	return c.BytesIn(FormTwo)
}

// FromBinary is the context of bytes that came so: of form two, or, from a
// sender of version 2.0, of form one. It is Lost where there is no byte, and
// where they aren't those of a context.
func FromBinary(data []byte) Context {
	if len(data) == 0 {
		return Lost()
	}
	return Context{b: read(inputsOf(string(data)))}
}

// Inject sets the header, in place of any that is there. A context that may be
// longer than the channel takes is cut before: c.Cut(RequestBudget).
func Inject(h http.Header, c Context) {
	h.Set(Header, ToHeader(c))
}

// Extract is the context that came in headers: the merge of all that they say,
// Lost where it can't be read, and absent where there is none. Absent is
// Context{} where requests begin, and Lost() where a context was promised.
func Extract(h http.Header, absent Context) Context {
	values := h.Values(Header)
	if len(values) == 0 {
		return absent
	}
	return fromParts(partsOf(values))
}

// InjectReply sets the headers of the reply to a request, as Handler does: the
// context, the check of the one that came with the request, and
// no-cache="terncommode" in Cache-Control, so that no cache gives the context of
// one request to another.
func InjectReply(reply, request http.Header, c Context) {
	Inject(reply, c)
	reply.Del(ForHeader)
	if check := checkIn(request); check != "" {
		reply.Set(ForHeader, check)
	}
	const directive = `no-cache="terncommode"`
	if said := strings.Join(reply.Values("Cache-Control"), ", "); said == "" {
		reply.Set("Cache-Control", directive)
	} else if !strings.Contains(strings.ToLower(said), directive) {
		reply.Set("Cache-Control", said+", "+directive)
	}
}

// ExtractReply is the context that came with the reply to a request, as Transport
// reads it. It is Lost where the reply brings none, or says that it answers
// another request.
func ExtractReply(reply, request http.Header) Context {
	check, answers := checkIn(request), reply.Values(ForHeader)
	if check == "" || len(answers) != 1 || answers[0] != check {
		return Lost()
	}
	return Extract(reply, Lost())
}

// checkIn is the check of the first context in the headers of a request, "" where
// there is none.
func checkIn(h http.Header) string {
	first, _, _ := strings.Cut(h.Get(Header), ",")
	_, check, _ := strings.Cut(strings.Trim(first, " \t"), ".")
	if len(check) != checkLetters || strings.Trim(check, alphabet) != "" {
		return ""
	}
	return check
}

const alphabet = "ABCDEFGHIJKLMNOPQRSTUVWXYZabcdefghijklmnopqrstuvwxyz0123456789-_"

// takeOut deletes from headers all that carries contexts or goes with them: the
// headers of this project, and its member of the header baggage, however they
// are spelled.
func takeOut(h http.Header) {
	for name := range h {
		if members.IsOwn(name) {
			delete(h, name)
		}
	}
	others, isWhole := members.Others(h.Values(baggageHeader))
	if isWhole {
		return
	}
	h.Del(baggageHeader)
	if len(others) > 0 {
		h.Set(baggageHeader, strings.Join(others, ","))
	}
}
