package org.terncommode;

import java.nio.charset.StandardCharsets;
import java.util.ArrayList;
import java.util.Arrays;
import java.util.BitSet;
import java.util.Collections;
import java.util.LinkedHashMap;
import java.util.List;
import java.util.Map;

/** The table of a definition: the text that {@code baggage table FILE BAG} prints, or an excerpt of it. */
public final class Table {
    /** The table without fields, of a service that knows none. */
    public static final Table EMPTY = new Table("baggage table 1\n");

    private final String text;
    private final byte[] encoded;
    private final List<String> lines;
    private final Map<String, Row> rows = new LinkedHashMap<>(); // those that are reached through bags, by their name paths
    private final Map<String, Row> slots = new LinkedHashMap<>();

    /** A field that is reached through bags: its lines, one after another, and those of the bags on the way to it. */
    private static final class Row {
        final String path;
        final String words;
        final List<Integer> numbers = new ArrayList<>();
        final List<Row> way;
        final Shape shape;
        final int first;
        int last;

        Row(String path, String[] parts, List<Row> way, Shape shape, int line) {
            this.path = path;
            this.words = parts[3];
            this.way = List.copyOf(way);
            this.shape = shape;
            this.first = line;
            this.last = line;
            if (!way.isEmpty()) {
                numbers.addAll(way.get(way.size() - 1).numbers);
            }
            numbers.add(Integer.valueOf(parts[1]));
        }
    }

    /** A bag that is open while its fields' lines are read. */
    private static final class Open {
        final Shape.Fields shape;
        final Row row; // none for the whole table and inside of maps
        final boolean isReached;

        Open(Shape.Fields shape, Row row, boolean isReached) {
            this.shape = shape;
            this.row = row;
            this.isReached = isReached;
        }
    }

    private Table(String text) {
        this.text = text;
        // A letter beyond ASCII stands in no table, nor does the question mark that takes its place.
        encoded = text.getBytes(StandardCharsets.US_ASCII);
        Native.checkTable(encoded);
        lines = List.of(text.split("\n"));
        readRows();
    }

    /**
     * The table with this text.
     *
     * @throws Refused.BadTable where the text isn't that of a table
     */
    public static Table of(String text) {
        return new Table(text);
    }

    private void readRows() {
        List<Open> open = new ArrayList<>(List.of(new Open(new Shape.Fields(), null, true)));
        for (int line = 1; line < lines.size(); line++) {
            String[] parts = lines.get(line).split(" ", 4);
            int depth = Integer.parseInt(parts[0]);
            open.subList(depth + 1, open.size()).clear();
            readRow(parts, line, open);
        }
    }

    private void readRow(String[] parts, int line, List<Open> open) {
        Open bag = open.get(open.size() - 1);
        Shape shape = Shape.of(Arrays.asList(parts[3].split(" ")));
        bag.shape.add(parts[2], shape);
        List<Row> way = new ArrayList<>();
        for (Open above : open) {
            if (above.row != null) {
                above.row.last = line;
                way.add(above.row);
            }
        }
        Row row = null;
        if (bag.isReached) {
            row = new Row(bag.row == null ? parts[2] : bag.row.path + "." + parts[2], parts, way, shape, line);
            rows.put(row.path, row);
            if (!(shape instanceof Shape.Fields)) {
                slots.put(row.path, row);
            }
        }
        if (shape.inner() != null) {
            open.add(new Open(shape.inner(), row, bag.isReached && shape == shape.inner()));
        }
    }

    /** The text of the table. */
    public String text() {
        return text;
    }

    byte[] encoded() {
        return encoded;
    }

    /** The name paths of the slots, in the order of the table. */
    public List<String> slots() {
        return List.copyOf(slots.keySet());
    }

    /**
     * The excerpt with the fields at these paths alone, each a slot or a bag with all that it has.
     *
     * @throws Refused.NoField where no field that is reached through bags has the path
     */
    public Table only(String... paths) {
        BitSet kept = new BitSet();
        kept.set(0);
        for (String path : paths) {
            Row row = rows.get(path);
            if (row == null) {
                throw new Refused.NoField(0, path);
            }
            row.way.forEach(above -> kept.set(above.first));
            kept.set(row.first, row.last + 1);
        }
        StringBuilder excerpt = new StringBuilder();
        kept.stream().forEach(line -> excerpt.append(lines.get(line)).append('\n'));
        return new Table(excerpt.toString());
    }

    boolean hasSlot(String path) {
        return slots.containsKey(path);
    }

    Shape shape(String path) {
        Row row = slots.get(path);
        if (row == null) {
            throw new Refused.NoField(0, path);
        }
        return row.shape;
    }

    /** The type of a slot, as the table has it. */
    String wordsOf(String path) {
        return slots.get(path).words;
    }

    /** The numbers of a slot and of the bags on the way to it: what stands for its names in a context. */
    List<Integer> numbersOf(String path) {
        return Collections.unmodifiableList(slots.get(path).numbers);
    }

    @Override
    public boolean equals(Object other) {
        return other instanceof Table && text.equals(((Table) other).text);
    }

    @Override
    public int hashCode() {
        return text.hashCode();
    }

    @Override
    public String toString() {
        return "table of " + String.join(", ", slots.keySet());
    }
}
