// Package members is what an edge takes out of the header baggage of W3C.
package members

import (
	"net/url"
	"strings"
)

const name = "terncommode"

// deepest is how often a name may be encoded that is a stranger's own.
const deepest = 8

// IsOwn is whether a service could read this name as that of the member that
// carries a context, or as one of this project's headers: in whatever case, and
// percent-encoded, also more than once, since a service with OpenTelemetry may
// decode a name and send it on.
func IsOwn(member string) bool {
	member, _, _ = strings.Cut(member, "=")
	member, _, _ = strings.Cut(member, ";")
	for times := 0; ; times++ {
		decoded, err := url.QueryUnescape(member)
		if err != nil || decoded == member {
			break
		}
		if member = decoded; times == deepest {
			return true
		}
	}
	member = strings.ToLower(strings.TrimSpace(member))
	return member == name || strings.HasPrefix(member, name+"-")
}

// Others are the members in values of the header that aren't IsOwn. Where all of
// them are others, isWhole is true.
func Others(values []string) (others []string, isWhole bool) {
	isWhole = true
	for _, member := range strings.Split(strings.Join(values, ","), ",") {
		switch {
		case IsOwn(member):
			isWhole = false
		case strings.Trim(member, " \t") != "":
			others = append(others, member)
		}
	}
	return others, isWhole
}
