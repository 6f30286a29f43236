package org.terncommode;

import java.math.BigInteger;
import java.util.ArrayList;
import java.util.Collections;
import java.util.List;

/** What a scalar is: one word, or the words of a struct. */
abstract class Kind {
    private static final List<String> LONG_WORDS = List.of("uint64", "fixed64");

    /** The value whose literal comes next. */
    abstract Object parse(Text text);

    /** The literal of a value. */
    abstract String format(Object value);

    static Kind of(String words) {
        if (words.startsWith("(")) {
            return new Struct(words.substring(1, words.length() - 1).split(","));
        }
        switch (words) {
            case "bool":
                return new Bool();
            case "string":
                return new Str();
            case "bytes":
                return new Data();
            default:
                return new Int(words);
        }
    }

    private static final class Bool extends Kind {
        @Override
        Boolean parse(Text text) {
            return text.word("true", "false").equals("true");
        }

        @Override
        String format(Object value) {
            if (!(value instanceof Boolean)) {
                throw Shape.wrong(value, "a Boolean");
            }
            return value.toString();
        }
    }

    private static final class Str extends Kind {
        @Override
        String parse(Text text) {
            return text.string();
        }

        @Override
        String format(Object value) {
            if (!(value instanceof String)) {
                throw Shape.wrong(value, "a String");
            }
            return Texts.quote((String) value);
        }
    }

    private static final class Data extends Kind {
        @Override
        Bytes parse(Text text) {
            text.word("0x");
            return Bytes.ofHex(text.hexadecimal());
        }

        @Override
        String format(Object value) {
            if (value instanceof byte[]) {
                return "0x" + Texts.hex((byte[]) value);
            }
            if (!(value instanceof Bytes)) {
                throw Shape.wrong(value, "Bytes");
            }
            return value.toString();
        }
    }

    /** An integer: a BigInteger of 64 bits without sign, and else a Long. */
    private static final class Int extends Kind {
        private final boolean isLong;
        private final BigInteger least;
        private final BigInteger greatest;

        Int(String word) {
            int bits = word.endsWith("64") ? 64 : 32;
            boolean isSigned = !(word.startsWith("u") || word.startsWith("f"));
            isLong = LONG_WORDS.contains(word);
            least = isSigned ? BigInteger.ONE.shiftLeft(bits - 1).negate() : BigInteger.ZERO;
            greatest = BigInteger.ONE.shiftLeft(isSigned ? bits - 1 : bits).subtract(BigInteger.ONE);
        }

        @Override
        Object parse(Text text) {
            BigInteger number = text.integer();
            if (isLong) {
                return number;
            }
            return number.longValueExact();
        }

        @Override
        String format(Object value) {
            BigInteger number = value instanceof BigInteger ? (BigInteger) value : isSmall(value) ? BigInteger.valueOf(((Number) value).longValue())
                : null;
            if (number == null || number.compareTo(least) < 0 || number.compareTo(greatest) > 0) {
                throw Shape.wrong(value, "an integer from " + least + " to " + greatest);
            }
            return number.toString();
        }

        private static boolean isSmall(Object value) {
            return value instanceof Long || value instanceof Integer || value instanceof Short || value instanceof Byte;
        }
    }

    private static final class Struct extends Kind {
        private final List<Kind> kinds = new ArrayList<>();

        Struct(String[] words) {
            for (String word : words) {
                kinds.add(of(word));
            }
        }

        @Override
        List<Object> parse(Text text) {
            List<Object> values = new ArrayList<>();
            text.list('(', ')', () -> values.add(kinds.get(values.size()).parse(text)));
            return Collections.unmodifiableList(values);
        }

        @Override
        String format(Object value) {
            if (!(value instanceof List) || ((List<?>) value).size() != kinds.size()) {
                throw Shape.wrong(value, "a List of " + kinds.size());
            }
            List<String> parts = new ArrayList<>();
            for (Object part : (List<?>) value) {
                parts.add(kinds.get(parts.size()).format(part));
            }
            return "(" + String.join(",", parts) + ")";
        }
    }
}
