package org.terncommode;

import java.nio.charset.StandardCharsets;
import java.util.ArrayList;
import java.util.LinkedHashSet;
import java.util.List;
import java.util.Optional;
import java.util.Set;

/**
 * The way in for what strangers send. A stranger can write any field, any marker, and bytes that no table names. So nothing of what came goes on as
 * it came: each field is read under its own line of the table and written anew.
 */
public final class Ingress {
    /** The text of a field has at most so many times the letters of a header. */
    private static final int TEXT_FACTOR = 4;

    private final Bag bag;
    private final Limits limits;
    private boolean isWhole = true;

    private Ingress(Bag bag, Limits limits) {
        this.bag = bag;
        this.limits = limits;
    }

    /** What comes in of the values of a header, within the usual limits: see {@link #letIn(List, Bag, Limits)}. */
    public static Context letIn(List<String> values, Bag bag) {
        return letIn(values, bag, Limits.USUAL);
    }

    /** What comes in of the values of a header: the fields of the bag alone, each read and written anew. It never fails by what came. */
    public static Context letIn(List<String> values, Bag bag, Limits limits) {
        return new Ingress(bag.in(Form.ONE), limits).inside(values);
    }

    private Context inside(List<String> values) {
        Context came = arrived(values);
        Context inside = Context.EMPTY;
        List<String> slots = bag.slots();
        long[] lengths = Native.places(bag.table().encoded(), came.data(), slots.size());
        for (int slot = 0; slot < lengths.length; slot++) { // fields of which nothing is said aren't read one by one
            inside = lengths[slot] == 0 ? inside : withField(inside, came, slots.get(slot));
        }
        if (!limits.dropsPartial && !(isWhole && isAll(came, inside))) {
            inside = inside.join(Context.LOST);
        }
        return inside.cut(limits.budget);
    }

    /** The merge of the parts that can be read, within the limits. */
    private Context arrived(List<String> values) {
        long letters = values.stream().mapToLong(String::length).sum();
        List<String> parts = new ArrayList<>();
        for (String value : letters > limits.letters ? List.<String>of() : values) {
            for (String part : value.split(",", -1)) {
                parts.add(Carriers.strip(part));
            }
        }
        isWhole = letters <= limits.letters && parts.size() <= limits.parts;
        Set<String> read = new LinkedHashSet<>(parts.subList(0, Math.min(parts.size(), limits.parts)));
        List<Context> contexts = new ArrayList<>();
        for (String part : read) {
            Optional<Context> context = contextOf(part);
            context.ifPresent(contexts::add);
            isWhole &= context.isPresent();
        }
        return isWhole ? Context.join(contexts) : Context.join(contexts).join(Context.LOST);
    }

    private static Optional<Context> contextOf(String part) {
        try {
            return Carriers.dataOf(part).map(Context::of);
        } catch (Refused.Fault refused) {
            return Optional.empty();
        }
    }

    /** Whether what is inside is all that came, as a service that knows the table takes it. */
    private boolean isAll(Context came, Context inside) {
        try {
            return bag.update(came).equals(inside);
        } catch (Refused.IllTyped refused) {
            return false;
        }
    }

    /** What is inside with one field of what came. What stays outside of it is noted. */
    private Context withField(Context inside, Context came, String path) {
        Bag alone = bag.alone(path);
        Coming field = new Coming();
        try {
            Field<String> text = alone.text(came, path, (int) Math.min(Integer.MAX_VALUE, (long) TEXT_FACTOR * limits.letters));
            field.stays = limits.dropsPartial && !text.isExact();
            if (!field.stays) {
                field.text = text.value();
                field.value("");
            }
            Context with = alone.update(inside, field.writes(path));
            isWhole &= !field.stays;
            boolean isLeftOut = limits.dropsPartial && (field.stays || with.size() > limits.budget);
            return isLeftOut ? inside : with;
        } catch (Refused.IllTyped | Refused.TooLong | Refused.BadWrite refused) {
            isWhole = false;
            return inside;
        }
    }

    /** The writes that a field's text makes, which is taken from its front. */
    private final class Coming {
        private final List<String> texts = new ArrayList<>();
        private String text = "";
        private boolean isOutside; // what is read now stays outside
        private boolean stays; // anything stays outside

        Writes writes(String path) {
            Writes writes = Writes.NONE;
            for (String each : texts) {
                writes = writes.text(path, each);
            }
            return writes;
        }

        /** Takes the value with which the text begins, whose writes begin with a prefix. */
        private void value(String prefix) {
            if (text.startsWith("[")) {
                list(']', () -> field(prefix));
                return;
            }
            String literal = literal();
            if (text.startsWith("{")) { // before it stands the total of a counter, or nothing
                list('}', () -> element(prefix));
            } else if (!literal.equals("-") && !literal.equals("off")) {
                add(prefix, literal);
            }
        }

        private void add(String prefix, String literal) {
            if (isOutside || size(literal) > Math.min(limits.text, limits.letters)) {
                stays = true;
            } else {
                texts.add(prefix + literal);
            }
        }

        private int size(String literal) {
            return literal.getBytes(StandardCharsets.UTF_8).length;
        }

        private void list(char last, Runnable item) {
            text = text.substring(1);
            while (text.charAt(0) != last) {
                item.run();
                text = text.startsWith(",") ? text.substring(1) : text;
            }
            text = text.substring(1);
        }

        /** Takes an element of a set, a writer and its count, or a key of a map and its value. */
        private void element(String prefix) {
            String literal = literal();
            if (!text.startsWith(":")) {
                add(prefix, literal);
                return;
            }
            int before = texts.size();
            below(prefix, literal + ":", size(literal) > limits.text);
            stays |= texts.size() == before; // a key without a value can't be written
        }

        /** Takes a field of a bag inside of a map. */
        private void field(String prefix) {
            int equals = text.indexOf('=');
            String name = text.substring(0, equals);
            text = "=" + text.substring(equals + 1);
            below(prefix, "." + name + "=", false);
        }

        /** Takes the value after a key or a name. */
        private void below(String prefix, String name, boolean isTooLong) {
            boolean wasOutside = isOutside;
            isOutside |= isTooLong || size(prefix + name) > limits.letters;
            text = text.substring(1);
            value(prefix + name);
            isOutside = wasOutside;
        }

        /** Takes a word, a string or a struct. */
        private String literal() {
            int depth = 0;
            boolean isQuoted = false;
            int length = 0;
            while (length < text.length() && (isQuoted || depth > 0 || ",:{}]".indexOf(text.charAt(length)) < 0)) {
                char letter = text.charAt(length);
                isQuoted ^= letter == '"';
                depth += isQuoted ? 0 : letter == '(' ? 1 : letter == ')' ? -1 : 0;
                length += isQuoted && letter == '\\' ? 2 : 1;
            }
            String literal = text.substring(0, length);
            text = text.substring(length);
            return literal;
        }
    }
}
