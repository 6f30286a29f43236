package org.terncommode;

import java.math.BigInteger;
import java.util.ArrayList;
import java.util.Collection;
import java.util.Collections;
import java.util.LinkedHashMap;
import java.util.LinkedHashSet;
import java.util.List;
import java.util.Map;
import java.util.Optional;
import java.util.Set;
import java.util.TreeMap;

/** What a field holds: the texts of its values, read and written as Java's own types. */
abstract class Shape {
    /** The value whose text comes next. */
    abstract Object parse(Text text);

    /** The texts of the writes that together say a value are added to the list, each after this prefix. */
    abstract void write(Object value, String prefix, List<String> writes);

    /** The bag whose fields the next lines of the table say; none where there is none. */
    Fields inner() {
        return null;
    }

    /** The shape that the words of a table's line say. */
    static Shape of(List<String> words) {
        switch (words.get(0)) {
            case "taint":
                return new Taint();
            case "counter":
                return new Counted();
            case "set":
                return new Several(Kind.of(words.get(1)));
            case "map":
                return new Keyed(Kind.of(words.get(1)), of(words.subList(2, words.size())));
            case "bag":
                return new Fields();
            default:
                return new Single(Kind.of(words.get(1)));
        }
    }

    /** What a whole text says. */
    final Object valueOf(String text) {
        Text rest = new Text(text);
        Object value = parse(rest);
        rest.end();
        return value;
    }

    static IllegalArgumentException wrong(Object value, String wanted) {
        return new IllegalArgumentException("not " + wanted + ": " + Texts.shown(String.valueOf(value)));
    }

    private static final class Taint extends Shape {
        @Override
        Boolean parse(Text text) {
            return text.word("on", "off").equals("on");
        }

        @Override
        void write(Object value, String prefix, List<String> writes) {
            if (!(value instanceof Boolean)) {
                throw wrong(value, "a Boolean");
            }
            if ((Boolean) value) {
                writes.add(prefix + "on");
            }
        }
    }

    /** A scalar or a greatest. */
    private static final class Single extends Shape {
        private final Kind kind;

        Single(Kind kind) {
            this.kind = kind;
        }

        @Override
        Optional<Object> parse(Text text) {
            return text.isAbsent() ? Optional.empty() : Optional.of(kind.parse(text));
        }

        @Override
        void write(Object value, String prefix, List<String> writes) {
            Object said = value instanceof Optional ? ((Optional<?>) value).orElse(null) : value;
            if (said == null && value == null) {
                throw wrong(null, "a value, or an Optional of one");
            }
            if (said != null) {
                writes.add(prefix + kind.format(said));
            }
        }
    }

    private static final class Several extends Shape {
        private final Kind kind;

        Several(Kind kind) {
            this.kind = kind;
        }

        @Override
        Set<Object> parse(Text text) {
            Set<Object> values = new LinkedHashSet<>();
            text.list('{', '}', () -> values.add(kind.parse(text)));
            return Collections.unmodifiableSet(values);
        }

        @Override
        void write(Object value, String prefix, List<String> writes) {
            if (!(value instanceof Collection)) {
                throw wrong(value, "a Collection");
            }
            for (Object element : (Collection<?>) value) {
                writes.add(prefix + kind.format(element));
            }
        }
    }

    static final class Counted extends Shape {
        private static final Kind WRITER = Kind.of("bytes");
        private static final Kind COUNT = Kind.of("uint64");

        @Override
        Counter parse(Text text) {
            Map<Bytes, BigInteger> counts = new TreeMap<>();
            text.digits();
            text.list('{', '}', () -> {
                Bytes writer = (Bytes) WRITER.parse(text);
                text.expect(':');
                counts.put(writer, (BigInteger) COUNT.parse(text));
            });
            return Counter.of(counts);
        }

        @Override
        void write(Object value, String prefix, List<String> writes) {
            if (!(value instanceof Counter)) {
                throw wrong(value, "a Counter");
            }
            ((Counter) value).counts().forEach((writer, count) -> writes.add(prefix + WRITER.format(writer) + ":" + COUNT.format(count)));
        }
    }

    private static final class Keyed extends Shape {
        private final Kind key;
        private final Shape shape;

        Keyed(Kind key, Shape shape) {
            this.key = key;
            this.shape = shape;
        }

        @Override
        Fields inner() {
            return shape.inner();
        }

        @Override
        Map<Object, Object> parse(Text text) {
            Map<Object, Object> values = new LinkedHashMap<>();
            text.list('{', '}', () -> {
                Object each = key.parse(text);
                text.expect(':');
                values.put(each, shape.parse(text));
            });
            return Collections.unmodifiableMap(values);
        }

        @Override
        void write(Object value, String prefix, List<String> writes) {
            if (!(value instanceof Map)) {
                throw wrong(value, "a Map");
            }
            ((Map<?, ?>) value).forEach((each, inner) -> {
                int before = writes.size();
                String literal = key.format(each);
                shape.write(inner, prefix + literal + ":", writes);
                if (writes.size() == before) {
                    throw new IllegalArgumentException("no write says a key without a value, as " + Texts.shown(literal) + " is here");
                }
            });
        }
    }

    /** A bag: its fields by name, in the order of their numbers. */
    static final class Fields extends Shape {
        private final Map<String, Shape> fields = new LinkedHashMap<>();

        void add(String name, Shape shape) {
            fields.put(name, shape);
        }

        @Override
        Fields inner() {
            return this;
        }

        @Override
        Map<String, Object> parse(Text text) {
            Map<String, Object> values = new LinkedHashMap<>();
            List<String> names = new ArrayList<>(fields.keySet());
            text.list('[', ']', () -> {
                String name = names.get(values.size());
                text.word(name + "=");
                values.put(name, fields.get(name).parse(text));
            });
            return Collections.unmodifiableMap(values);
        }

        @Override
        void write(Object value, String prefix, List<String> writes) {
            if (!(value instanceof Map)) {
                throw wrong(value, "a Map of values by field name");
            }
            for (Object name : ((Map<?, ?>) value).keySet()) {
                if (!fields.containsKey(name)) {
                    throw new IllegalArgumentException("the bag has no field " + Texts.shown(String.valueOf(name)));
                }
            }
            fields.forEach((name, shape) -> {
                if (((Map<?, ?>) value).containsKey(name)) {
                    shape.write(((Map<?, ?>) value).get(name), prefix + "." + name + "=", writes);
                }
            });
        }
    }
}
