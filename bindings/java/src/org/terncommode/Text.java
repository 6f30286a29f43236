package org.terncommode;

import java.math.BigInteger;

/** The text of a value, which is taken from its front. It is one that the library made, or one that is refused. */
final class Text {
    private final String text;
    private int at;

    Text(String text) {
        this.text = text;
    }

    private IllegalArgumentException bad() {
        return new IllegalArgumentException("not the text of a value, at letter " + at + ": " + Texts.shown(text.substring(at)));
    }

    void end() {
        if (at != text.length()) {
            throw bad();
        }
    }

    void expect(char sign) {
        if (at >= text.length() || text.charAt(at) != sign) {
            throw bad();
        }
        at++;
    }

    private boolean skip(char sign) {
        boolean isThere = at < text.length() && text.charAt(at) == sign;
        at += isThere ? 1 : 0;
        return isThere;
    }

    /** The first of the words that comes next. */
    String word(String... words) {
        for (String word : words) {
            if (text.startsWith(word, at)) {
                at += word.length();
                return word;
            }
        }
        throw bad();
    }

    /** Whether the sign of what is absent comes next, which a negative number begins with too. */
    boolean isAbsent() {
        boolean isSign = text.startsWith("-", at) && !(at + 1 < text.length() && isDigit(text.charAt(at + 1)));
        return isSign && skip('-');
    }

    /** What stands between two signs, with commas between its items. */
    void list(char first, char last, Runnable item) {
        expect(first);
        if (skip(last)) {
            return;
        }
        do {
            item.run();
        } while (skip(','));
        expect(last);
    }

    private static boolean isDigit(char letter) {
        return letter >= '0' && letter <= '9';
    }

    String digits() {
        int first = at;
        while (at < text.length() && isDigit(text.charAt(at))) {
            at++;
        }
        if (at == first) {
            throw bad();
        }
        return text.substring(first, at);
    }

    BigInteger integer() {
        boolean isNegative = skip('-');
        BigInteger number = new BigInteger(digits());
        return isNegative ? number.negate() : number;
    }

    String hexadecimal() {
        int first = at;
        while (at < text.length() && (isDigit(text.charAt(at)) || text.charAt(at) >= 'a' && text.charAt(at) <= 'f')) {
            at++;
        }
        if ((at - first) % 2 != 0) {
            throw bad();
        }
        return text.substring(first, at);
    }

    String string() {
        StringBuilder string = new StringBuilder();
        expect('"');
        while (!skip('"')) {
            if (at >= text.length()) {
                throw bad();
            }
            string.append(skip('\\') ? escaped() : text.charAt(at++));
        }
        return string.toString();
    }

    private char escaped() {
        if (!skip('x')) {
            if (at >= text.length()) {
                throw bad();
            }
            return text.charAt(at++);
        }
        if (at + 2 > text.length()) {
            throw bad();
        }
        at += 2;
        return (char) Integer.parseInt(text.substring(at - 2, at), 16);
    }
}
