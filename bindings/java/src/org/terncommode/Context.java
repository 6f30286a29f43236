package org.terncommode;

import java.util.ArrayList;
import java.util.Arrays;
import java.util.List;
import java.util.Objects;

/**
 * What a request carries along. It is always valid and never changes, so a copy is a branch. Two contexts are equal where they say the same in the
 * same atoms.
 */
public final class Context {
    /** The empty context, with which a request begins. */
    public static final Context EMPTY = new Context(new byte[0], false);

    /** The context of one marker: anything may be missing, so no field is exact. It stands for a context that was promised and can't be read. */
    public static final Context LOST = new Context(Native.LOST, false);

    /** The budget to which no context is cut. */
    public static final long NO_BUDGET = Long.MAX_VALUE;

    private static final byte[] MARK = {-1, -1, -1, 2};
    private static final int SHOWN = 32;

    private final byte[] data; // in form one, or in form two where an atom needs it

    // A reply is awaited that has begun, so this context is joined with LOST. It is so only in a step of Request.change: what the step makes of it is
    // held without that marker once the reply is here.
    private final boolean isOpen;

    private Context(byte[] data, boolean isOpen) {
        this.data = data;
        this.isOpen = isOpen;
    }

    /** The context of bytes that a call has made. */
    static Context made(byte[] data) {
        boolean isFormTwo = data.length >= MARK.length && Arrays.equals(data, 0, MARK.length, MARK, 0, MARK.length);
        return new Context(isFormTwo ? Native.join(Form.ONE, List.of(data), NO_BUDGET) : data, false);
    }

    /** The merge of what came as bytes, of which what isn't a context counts as lost. */
    static Context read(List<byte[]> inputs) {
        return new Context(Native.read(inputs), false);
    }

    /**
     * The context with these bytes, in either form.
     *
     * @throws Refused.Fault where they aren't those of a context
     */
    public static Context of(byte[] bytes) {
        return new Context(Native.join(Form.ONE, List.of(bytes), NO_BUDGET), false);
    }

    /** The merge of contexts; the empty one where there is none. */
    public static Context join(Context... contexts) {
        return join(Arrays.asList(contexts));
    }

    /** The merge of contexts; the empty one where there is none. */
    public static Context join(Iterable<Context> contexts) {
        List<Context> all = listOf(contexts);
        if (all.size() == 1) {
            return all.get(0);
        }
        return new Context(Native.join(Form.ONE, heldBy(all), NO_BUDGET), areOpen(all));
    }

    /** The merge with another context. */
    public Context join(Context other) {
        return join(List.of(this, other));
    }

    /** The context within so many bytes of form one: see {@link #cut(long, Form)}. */
    public Context cut(long budget) {
        return cut(budget, Form.ONE);
    }

    /**
     * The context within so many bytes of a form. A longer one loses its last fields, and what it may have lost isn't exact from there on. A budget
     * below the least one of the form, 1 or 13, counts as that.
     */
    public Context cut(long budget, Form form) {
        return made(Native.join(form, List.of(data()), budget));
    }

    /**
     * The bytes of the context in form one, or in form two where an atom is too long for that. Form one has no end of its own: send them only where
     * their length travels with them.
     */
    public byte[] bytes() {
        return data().clone();
    }

    /** The bytes of the context in a form. */
    public byte[] bytes(Form form) {
        return form == Form.ONE ? bytes() : Native.join(form, List.of(data()), NO_BUDGET);
    }

    /** How many bytes {@link #bytes()} gives. */
    public int size() {
        return data().length;
    }

    byte[] data() {
        return closed().data;
    }

    /**
     * The context with the marker that it is joined with while a reply is open. Join and Bag.update hand the word on; all else looks at closed ones.
     */
    Context closed() {
        return isOpen ? join(List.of(open(false), LOST)) : this;
    }

    /** The same context, open or not. */
    Context open(boolean isOpen) {
        return isOpen == this.isOpen ? this : new Context(data, isOpen);
    }

    static boolean areOpen(List<Context> contexts) {
        return contexts.stream().anyMatch(context -> context.isOpen);
    }

    static List<Context> listOf(Iterable<Context> contexts) {
        List<Context> all = new ArrayList<>();
        contexts.forEach(context -> all.add(Objects.requireNonNull(context, "a context is null")));
        return all;
    }

    static List<byte[]> dataOf(List<Context> contexts) {
        List<byte[]> all = new ArrayList<>(contexts.size());
        contexts.forEach(context -> all.add(context.data()));
        return all;
    }

    /** The bytes of contexts without the marker that open ones are joined with. */
    static List<byte[]> heldBy(List<Context> contexts) {
        List<byte[]> all = new ArrayList<>(contexts.size());
        contexts.forEach(context -> all.add(context.data));
        return all;
    }

    @Override
    public boolean equals(Object other) {
        return other instanceof Context && Arrays.equals(data(), ((Context) other).data());
    }

    @Override
    public int hashCode() {
        return Arrays.hashCode(data());
    }

    /**
     * For logs; {@link Carriers#toHeader} is for other services. It has the first 32 bytes in hexadecimal digits, so a log is as confidential as they
     * are.
     */
    @Override
    public String toString() {
        byte[] bytes = data();
        String digits = Texts.hex(bytes.length <= SHOWN ? bytes : Arrays.copyOf(bytes, SHOWN));
        return "context of " + bytes.length + " bytes " + digits + (bytes.length <= SHOWN ? "" : "..");
    }
}
