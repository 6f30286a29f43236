package org.terncommode;

import java.nio.ByteBuffer;
import java.nio.CharBuffer;
import java.nio.charset.CharacterCodingException;
import java.nio.charset.StandardCharsets;

/** Literals, and texts for people. */
public final class Texts {
    private static final int SHOWN = 80;
    private static final String DIGITS = "0123456789abcdef";

    private Texts() {}

    /**
     * The literal that writes a string.
     *
     * @throws IllegalArgumentException where a surrogate stands alone in it
     */
    public static String quote(String text) {
        utf8(text);
        StringBuilder quoted = new StringBuilder(text.length() + 2).append('"');
        for (int k = 0; k < text.length(); k++) {
            char letter = text.charAt(k);
            if (letter == '"' || letter == '\\') {
                quoted.append('\\').append(letter);
            } else if (letter < 0x20 || letter == 0x7f) {
                quoted.append("\\x").append(DIGITS.charAt(letter >> 4)).append(DIGITS.charAt(letter & 15));
            } else {
                quoted.append(letter);
            }
        }
        return quoted.append('"').toString();
    }

    /**
     * A text for people, in a terminal or a log: controls, separators of lines and what turns a text's direction are escaped. It isn't to be read
     * back.
     */
    public static String visible(String text) {
        StringBuilder shown = new StringBuilder(text.length());
        for (int k = 0; k < text.length(); k++) {
            char letter = text.charAt(k);
            if (isControl(letter) || isAlone(text, k)) {
                shown.append(String.format("\\u%04x", (int) letter));
            } else {
                shown.append(letter);
            }
        }
        return shown.toString();
    }

    private static boolean isControl(char letter) {
        return letter < 0x20 || letter >= 0x7f && letter <= 0x9f || letter == 0x2028 || letter == 0x2029 || letter >= 0x202a && letter <= 0x202e
            || letter >= 0x2066 && letter <= 0x2069;
    }

    /** Whether the letter at a place is half of one, and the other half isn't beside it. */
    private static boolean isAlone(String text, int place) {
        char letter = text.charAt(place);
        if (Character.isHighSurrogate(letter)) {
            return place + 1 == text.length() || !Character.isLowSurrogate(text.charAt(place + 1));
        }
        return Character.isLowSurrogate(letter) && (place == 0 || !Character.isHighSurrogate(text.charAt(place - 1)));
    }

    /** As much of a text as a message shows. */
    static String shown(String text) {
        return visible(text.length() <= SHOWN ? text : text.substring(0, SHOWN) + "..");
    }

    /** The bytes of a text. A surrogate alone has none; String.getBytes would take a question mark for it. */
    static byte[] utf8(String text) {
        try {
            ByteBuffer encoded = StandardCharsets.UTF_8.newEncoder().encode(CharBuffer.wrap(text));
            byte[] bytes = new byte[encoded.remaining()];
            encoded.get(bytes);
            return bytes;
        } catch (CharacterCodingException error) {
            throw new IllegalArgumentException("a text in which a surrogate stands alone: " + shown(text), error);
        }
    }

    static String hex(byte[] bytes) {
        StringBuilder digits = new StringBuilder(2 * bytes.length);
        for (byte each : bytes) {
            digits.append(DIGITS.charAt(each >> 4 & 15)).append(DIGITS.charAt(each & 15));
        }
        return digits.toString();
    }
}
