package terncommode

import (
	"fmt"
	"strings"
)

// Escape is a text for people, in a terminal or a log: the characters that
// control either, those that turn its direction round, and bytes that aren't
// UTF-8 are escaped as Go has them, `\n`, `\u202e`, `\xff`. Quotes and backslashes
// stay as they are: it isn't to be read back.
func Escape(text string) string {
	var shown strings.Builder
	for k, letter := range text {
		switch {
		case letter == '\uFFFD' && !strings.HasPrefix(text[k:], "\uFFFD"):
			fmt.Fprintf(&shown, `\x%02x`, text[k])
		case isControl(letter):
			quoted := fmt.Sprintf("%+q", letter)
			shown.WriteString(quoted[1 : len(quoted)-1])
		default:
			shown.WriteRune(letter)
		}
	}
	return shown.String()
}

func isControl(letter rune) bool {
	switch {
	case letter < 0x20, letter >= 0x7f && letter <= 0x9f, letter == 0x2028, letter == 0x2029:
		return true
	}
	return letter >= 0x202a && letter <= 0x202e || letter >= 0x2066 && letter <= 0x2069
}
