package org.terncommode;

import java.io.ByteArrayOutputStream;
import java.util.ArrayList;
import java.util.Collections;
import java.util.List;
import java.util.Objects;

/**
 * What an update writes. It never changes: each call gives another one. A write adds: of two values of a scalar the least stays (of a greatest the
 * greatest), a set and a map get what is new.
 */
public final class Writes {
    /** No write. */
    public static final Writes NONE = new Writes(List.of());

    private final List<Write> all;

    /** A name path, and a value or a text. */
    private static final class Write {
        final String path;
        final Object value;
        final boolean isText;

        Write(String path, Object value, boolean isText) {
            this.path = Objects.requireNonNull(path, "the path of a write is null");
            this.value = Objects.requireNonNull(value, () -> "the value written to " + Texts.shown(path) + " is null");
            this.isText = isText;
        }
    }

    private Writes(List<Write> all) {
        this.all = all;
    }

    /**
     * The writes of a value: a Boolean for a taint; for a scalar a Boolean, an integer, a String, Bytes, or of a struct a List of these, or an
     * Optional; for a set a Collection; a {@link Counter}; for a map a Map, and for a bag inside of one a Map by field name. A value that says
     * nothing, as an empty set, adds nothing.
     */
    public static Writes of(String path, Object value) {
        return NONE.set(path, value);
    }

    /** These writes, and that of a value: see {@link #of}. */
    public Writes set(String path, Object value) {
        return with(new Write(path, value, false));
    }

    /** These writes, and that of a text, as docs/FORMATS.md has it: {@code 7}, {@code "spring"}, {@code on}, {@code "writer":3}. */
    public Writes text(String path, String text) {
        return with(new Write(path, text, true));
    }

    private Writes with(Write write) {
        List<Write> longer = new ArrayList<>(all);
        longer.add(write);
        return new Writes(Collections.unmodifiableList(longer));
    }

    /** Whether nothing is written. */
    public boolean isEmpty() {
        return all.isEmpty();
    }

    /** The lines of the writes to a bag, each with the number of its write. */
    Lines lines(Table table) {
        Lines lines = new Lines();
        for (int number = 1; number <= all.size(); number++) {
            Write write = all.get(number - 1);
            for (String text : write.isText ? List.of((String) write.value) : textsOf(table, number, write)) {
                lines.add(number, write.path, text);
            }
        }
        return lines;
    }

    private static List<String> textsOf(Table table, int number, Write write) {
        List<String> texts = new ArrayList<>();
        if (!table.hasSlot(write.path)) {
            throw new Refused.NoField(number, write.path);
        }
        try {
            table.shape(write.path).write(write.value, "", texts);
        } catch (IllegalArgumentException refused) {
            throw new Refused.BadWrite(number, write.path, refused.getMessage());
        }
        return texts;
    }

    /** The lines that the library takes. */
    final class Lines {
        private final ByteArrayOutputStream bytes = new ByteArrayOutputStream();
        private final List<Integer> numbers = new ArrayList<>();

        /** Adds a line. A write never becomes two: no slot has the empty path, and no text of a write is empty. */
        private void add(int number, String path, String text) {
            bytes.writeBytes(line(path, " \n"));
            bytes.write(' ');
            bytes.writeBytes(line(text, "\n"));
            bytes.write('\n');
            numbers.add(number);
        }

        /** The bytes of a part of a line; none where a letter stands in it that it mustn't have, or half of one. */
        private byte[] line(String part, String without) {
            if (part.chars().anyMatch(letter -> without.indexOf(letter) >= 0)) {
                return new byte[0];
            }
            try {
                return Texts.utf8(part);
            } catch (IllegalArgumentException halved) {
                return new byte[0];
            }
        }

        byte[] bytes() {
            return bytes.toByteArray();
        }

        /** A refusal of a line, with the path and with what is wrong. */
        Refused named(Refused refused, Table table) {
            if (refused instanceof Refused.NoField) {
                int number = numbers.get(((Refused.NoField) refused).write() - 1);
                return new Refused.NoField(number, all.get(number - 1).path);
            }
            if (refused instanceof Refused.BadWrite) {
                int number = numbers.get(((Refused.BadWrite) refused).write() - 1);
                Write write = all.get(number - 1);
                String said = "no write to " + table.wordsOf(write.path) + (write.isText ? ": " : ", or longer than the form allows: ");
                return new Refused.BadWrite(number, write.path, said + Texts.shown(write.value.toString()));
            }
            return refused;
        }
    }
}
