import java.util.ArrayList;
import java.util.List;
import java.util.Map;
import java.util.Set;
import java.util.function.Supplier;
import org.terncommode.Bag;
import org.terncommode.Carriers;
import org.terncommode.Context;
import org.terncommode.Form;
import org.terncommode.Ingress;
import org.terncommode.Limits;
import org.terncommode.Refused;
import org.terncommode.Table;
import org.terncommode.Writes;

/**
 * Each request of memory that a call makes outside of Java's own is refused in turn: what comes is an OutOfMemoryError or the answer, and nothing
 * stays held.
 */
final class Memory {
    private static final String LONG = "a text that has no place in what a call takes for itself ".repeat(200);

    static {
        System.load(System.getProperty("terncommode.library"));
    }

    private Memory() {}

    private static native void grant(long number);

    private static native long asked();

    private static native long held();

    public static void main(String[] words) {
        Bag bag = Trying.BAG;
        Context one = bag.update(List.of(), Writes.of("id", 7).set("tags", Set.of(LONG)).set("load", Map.of("eur", 3)));
        List<Context> many = new ArrayList<>();
        for (int k = 0; k < 40; k++) {
            many.add(Trying.said("load", Map.of("k" + k, k)));
        }
        many.add(one);
        Context ill = Context.of(Answers.bytesOf("02f80003007878"));
        String longTable = bag.table().text() + "0 9 " + "n".repeat(3000) + " taint\n";
        String header = Carriers.toHeader(one);
        List<Supplier<Object>> calls = List.of(
            () -> Context.join(many),
            () -> Context.of(one.bytes(Form.TWO)),
            () -> one.cut(100),
            () -> Carriers.fromHeader(header + ",?," + header),
            () -> bag.update(many, Writes.of("tags", Set.of(LONG, "b"))),
            () -> bag.keep(Bag.Others.CUT, 4000, one, many.get(0)),
            () -> bag.report(one),
            () -> bag.text(one, "tags"),
            () -> Table.of(longTable).slots(),
            () -> Ingress.letIn(List.of(header), bag, Limits.USUAL.letters(100_000).text(100_000)),
            () -> refusal(() -> bag.update(List.of(one, ill.join(one)), Writes.of("tags", Set.of(LONG)))));
        long refused = 0;
        for (Supplier<Object> call : calls) {
            refused += refuses(call);
        }
        Trying.same(refused > calls.size(), true);
        System.out.println(refused + " requests of memory refused");
    }

    private static String refusal(Supplier<?> call) {
        return Trying.refused(Refused.IllTyped.class, call::get).getMessage();
    }

    /** How many requests of a call were refused. */
    private static long refuses(Supplier<Object> call) {
        Object good = call.get();
        long before = held();
        for (long number = 0;; number++) {
            grant(number);
            Object made = null;
            try {
                made = call.get();
            } catch (OutOfMemoryError error) {
                made = error;
            } catch (AssertionError error) {
                made = error.getCause();
            }
            long asked = asked();
            grant(-1);
            Trying.same(held(), before);
            if (asked <= number) {
                Trying.same(made, good);
                return number;
            }
            Trying.same(made instanceof OutOfMemoryError || good.equals(made), true);
        }
    }
}
