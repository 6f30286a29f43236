package org.terncommode;

import java.nio.charset.StandardCharsets;
import java.util.Collections;
import java.util.LinkedHashMap;
import java.util.LinkedHashSet;
import java.util.List;
import java.util.Map;
import java.util.Optional;
import java.util.Set;
import java.util.concurrent.ConcurrentHashMap;

/**
 * What a service knows: a table, and the form whose limits its writes and budgets have. It never changes.
 *
 * <p>Values are Java's own: a taint is a Boolean; a scalar is an Optional of a Boolean, a Long, a BigInteger (of 64 bits without sign), a String,
 * {@link Bytes}, or of a struct a List of these; a set is a Set of these; a counter is a {@link Counter}; a map is a Map by key, and a bag inside of
 * one a Map by field name.
 */
public final class Bag {
    /** The bag of a service that knows no field. */
    public static final Bag EMPTY = new Bag(Table.EMPTY, Form.ONE);

    /** How many bytes a text of what a context says may have, unless a call says otherwise: a short context can say a long text. */
    public static final int TEXT_LIMIT = 1 << 20;

    private final Table table;
    private final Form form;
    private final Map<String, Bag> alone = new ConcurrentHashMap<>();

    /** What a trust boundary does about the fields that it drops. */
    public enum Others {
        /** They are marked as cut off: no field is read as exact that isn't, under any table. */
        CUT(Native.CUT),
        /** Nothing is said of them: kept fields are exactly as exact as before, for readers with this table. */
        UNSAID(Native.UNSAID);

        private final int number;

        Others(int number) {
            this.number = number;
        }
    }

    private Bag(Table table, Form form) {
        this.table = table;
        this.form = form;
    }

    /** The bag of a table. */
    public static Bag of(Table table) {
        return new Bag(table, Form.ONE);
    }

    /**
     * The bag of a table's text.
     *
     * @throws Refused.BadTable where the text isn't that of a table
     */
    public static Bag of(String table) {
        return of(Table.of(table));
    }

    /** The table. */
    public Table table() {
        return table;
    }

    /** The name paths of the slots, in the order of the table. */
    public List<String> slots() {
        return table.slots();
    }

    /**
     * The bag that knows the fields at these paths alone. It updates fewer, and can be refused for the types of fewer.
     *
     * @throws Refused.NoField where there is no such field
     */
    public Bag only(String... paths) {
        return new Bag(table.only(paths), form);
    }

    /** The bag with one slot, which is kept: it is asked for with each count. */
    Bag alone(String slot) {
        return alone.computeIfAbsent(slot, this::only);
    }

    /**
     * The same bag with the limits of a form: budgets count its bytes, and a written datum may have 65,534 bytes in form one and 1,048,575 in form
     * two.
     */
    public Bag in(Form form) {
        return form == this.form ? this : new Bag(table, form);
    }

    /** One step of this service without a write: the context in normal form for the bag. */
    public Context update(Context context) {
        return update(List.of(context), Writes.NONE, Context.NO_BUDGET);
    }

    /** One step of this service with writes. */
    public Context update(Context context, Writes writes) {
        return update(List.of(context), writes, Context.NO_BUDGET);
    }

    /** One step of this service where branches meet. */
    public Context update(Iterable<Context> contexts, Writes writes) {
        return update(contexts, writes, Context.NO_BUDGET);
    }

    /**
     * One step of this service: the merge of the contexts and of what is written, in normal form, cut to the budget. Data of fields that the bag
     * doesn't have are left as they are.
     *
     * @throws Refused.IllTyped where a context has an atom that isn't spelled as the type of its field says. A service does best to go on as one that doesn't know
     *     the field, with {@link Context#join}.
     * @throws Refused.NoField where a write is to no slot
     * @throws Refused.BadWrite where a write is none to its field
     */
    public Context update(Iterable<Context> contexts, Writes writes, long budget) {
        List<Context> all = Context.listOf(contexts);
        Writes.Lines lines = writes.lines(table);
        try {
            return updated(all, lines.bytes(), budget);
        } catch (Refused.NoField | Refused.BadWrite refused) {
            throw lines.named(refused, table);
        }
    }

    private Context updated(List<Context> contexts, byte[] lines, long budget) {
        if (budget == Context.NO_BUDGET && Context.areOpen(contexts)) {
            try {
                return Context.made(Native.update(form, table.encoded(), Context.heldBy(contexts), lines, budget)).open(true);
            } catch (Refused.IllTyped refused) {
                // It is refused below too, with its place in what the caller sees.
            }
        }
        return Context.made(Native.update(form, table.encoded(), Context.dataOf(contexts), lines, budget));
    }

    /**
     * What this service makes of bytes that came, in either form.
     *
     * @throws Refused.Fault where they aren't those of a context
     * @throws Refused.IllTyped as {@link #update(Iterable, Writes, long)}; both have offsets in these bytes
     */
    public Context receive(byte[] bytes) {
        return Context.made(Native.update(Form.ONE, table.encoded(), List.of(bytes), new byte[0], Context.NO_BUDGET));
    }

    /** What may leave a trust boundary: of a context only what stands below the slots of this bag, cut to the budget. */
    public Context keep(Others others, long budget, Context... contexts) {
        List<Context> all = Context.listOf(List.of(contexts));
        return Context.made(Native.keep(form, others.number, table.encoded(), Context.dataOf(all), budget));
    }

    // ---- what a context says

    /** What a context says of a field, as the text that a report has, of at most {@link #TEXT_LIMIT} bytes. */
    public Field<String> text(Context context, String path) {
        return text(context, path, TEXT_LIMIT);
    }

    /**
     * What a context says of a field, as the text that a report has. It is shown to people by {@link Texts#visible}.
     *
     * @throws Refused.NoField where no slot has the path
     * @throws Refused.IllTyped where an atom of any field of this bag isn't spelled as its type says: {@code bag.only(path)} looks at no other
     * @throws Refused.TooLong where it has more bytes than the limit
     */
    public Field<String> text(Context context, String path, int limit) {
        if (!table.hasSlot(path)) {
            throw new Refused.NoField(0, path);
        }
        byte[] name = path.getBytes(StandardCharsets.US_ASCII);
        return Native.readField(table.encoded(), context.data(), name, checked(limit)).map(text -> new String(text, StandardCharsets.UTF_8));
    }

    private static int checked(int limit) {
        if (limit < 0) {
            throw new IllegalArgumentException("a limit of " + limit + " bytes");
        }
        return limit;
    }

    /** What a context says of a field, as a value. It throws what {@link #text(Context, String, int)} does. */
    public Field<Object> read(Context context, String path) {
        Shape shape = table.shape(path);
        return text(context, path).map(shape::valueOf);
    }

    /** What a context says of all fields, in the order of the table. */
    public Map<String, Field<Object>> readAll(Context context) {
        Map<String, Field<Object>> fields = new LinkedHashMap<>();
        String[] lines = report(context).split("\n");
        for (int k = 1; k < lines.length; k++) {
            String[] words = lines[k].split(" ", 3);
            fields.put(words[0], new Field<>(table.shape(words[0]).valueOf(words[2]), words[1].equals("exact")));
        }
        return Collections.unmodifiableMap(fields);
    }

    /** What a context says of all fields, as {@code baggage decode} prints it of the bytes in form one, in at most {@link #TEXT_LIMIT} bytes. */
    public String report(Context context) {
        return report(context, TEXT_LIMIT);
    }

    /**
     * What a context says of all fields. It is shown to people by {@link Texts#visible}, line by line.
     *
     * @throws Refused.IllTyped where an atom isn't spelled as the type of its field says
     * @throws Refused.TooLong where it has more bytes than the limit
     */
    public String report(Context context, int limit) {
        return new String(Native.report(table.encoded(), context.data(), checked(limit)), StandardCharsets.UTF_8);
    }

    // ---- fields whose type is known

    /** What a context says of a taint. */
    public Field<Boolean> readTaint(Context context, String path) {
        return read(context, path).map(value -> cast(value, Boolean.class, path));
    }

    /** What a context says of a scalar or a greatest of this type: Boolean, Long, BigInteger, String, Bytes or List. */
    public <T> Field<Optional<T>> readScalar(Context context, String path, Class<T> type) {
        return read(context, path).map(value -> {
            Optional<?> found = cast(value, Optional.class, path);
            return found.map(inner -> cast(inner, type, path));
        });
    }

    /** What a context says of a set of this type. */
    public <T> Field<Set<T>> readSet(Context context, String path, Class<T> type) {
        return read(context, path).map(value -> {
            Set<T> found = new LinkedHashSet<>();
            ((Set<?>) cast(value, Set.class, path)).forEach(element -> found.add(cast(element, type, path)));
            return Collections.unmodifiableSet(found);
        });
    }

    /** What a context says of a counter. */
    public Field<Counter> readCounter(Context context, String path) {
        return read(context, path).map(value -> cast(value, Counter.class, path));
    }

    /** What a context says of a map with keys of this type. */
    public <K> Field<Map<K, Object>> readMap(Context context, String path, Class<K> type) {
        return read(context, path).map(value -> {
            Map<K, Object> found = new LinkedHashMap<>();
            ((Map<?, ?>) cast(value, Map.class, path)).forEach((key, inner) -> found.put(cast(key, type, path), inner));
            return Collections.unmodifiableMap(found);
        });
    }

    private <T> T cast(Object value, Class<T> type, String path) {
        if (!type.isInstance(value)) {
            throw new ClassCastException(path + " is a " + table.wordsOf(path) + ", whose values aren't of " + type.getSimpleName());
        }
        return type.cast(value);
    }

    @Override
    public boolean equals(Object other) {
        return other instanceof Bag && table.equals(((Bag) other).table) && form == ((Bag) other).form;
    }

    @Override
    public int hashCode() {
        return 31 * table.hashCode() + form.hashCode();
    }

    @Override
    public String toString() {
        return "bag of " + String.join(", ", slots());
    }
}
