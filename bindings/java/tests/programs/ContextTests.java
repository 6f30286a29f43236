import java.math.BigInteger;
import java.nio.charset.StandardCharsets;
import java.util.Arrays;
import java.util.Collections;
import java.util.List;
import java.util.Map;
import java.util.Optional;
import java.util.Set;
import org.terncommode.Bag;
import org.terncommode.Bytes;
import org.terncommode.Carriers;
import org.terncommode.Context;
import org.terncommode.Counter;
import org.terncommode.Field;
import org.terncommode.Form;
import org.terncommode.Ingress;
import org.terncommode.Limits;
import org.terncommode.Members;
import org.terncommode.Refused;
import org.terncommode.Table;
import org.terncommode.Texts;
import org.terncommode.Writes;

/** Contexts, bags, values and carriers. */
final class ContextTests {
    private static final Bag BAG = Trying.BAG;
    private static final String WIDE = "baggage table 1\n0 0 sum scalar int64\n0 1 big greatest uint64\n0 2 raw scalar bytes\n0 3 at scalar (int32,string)\n0 4 on scalar bool\n"
        + "0 5 inner bag\n1 0 name scalar string\n1 1 deep bag\n2 7 hops counter\n0 6 by map string bag\n1 0 left scalar uint32\n1 1 names set string\n";

    private ContextTests() {}

    static void testContextsAreValues() {
        Context id = Trying.said("id", 7);
        Context tag = Trying.said("tags", Set.of("a"));
        Trying.same(id.join(tag), tag.join(id));
        Trying.same(id.join(tag).hashCode(), Context.join(tag, id, tag).hashCode());
        Trying.same(Context.join(), Context.EMPTY);
        Trying.same(Context.of(id.bytes()), id);
        Trying.same(Context.of(id.bytes(Form.TWO)), id);
        Trying.same(id.toString(), "context of 9 bytes 02f800050000000007");
        byte[] bytes = id.bytes();
        bytes[0] = 99;
        Trying.same(Context.of(id.bytes()), id);
        Refused.Fault fault = Trying.refused(Refused.Fault.class, () -> Context.of(new byte[] {2}));
        Trying.same(List.of(fault.input(), fault.offset(), fault.code()), List.of(0, 0L, "CutBody"));
        Trying.refused(NullPointerException.class, () -> Context.join(id, null));
        Trying.refused(IllegalArgumentException.class, () -> id.cut(-1));
        Trying.same(id.cut(0), Context.LOST);
        Trying.same(Trying.refused(NullPointerException.class, () -> Writes.of("id", null)).getMessage(), "the value written to id is null");
    }

    static void testALongAtomIsInFormTwo() {
        Bag bag = BAG.in(Form.TWO);
        String longest = "x".repeat(70_000);
        Context context = bag.update(List.of(), Writes.of("tags", Set.of(longest)));
        Trying.same(BAG.readSet(context, "tags", String.class), bag.readSet(context, "tags", String.class));
        Trying.same(Context.of(context.bytes()), context);
        Trying.same(BAG.readSet(context.join(Trying.said("id", 1)), "tags", String.class).value(), Set.of(longest));
        Refused.BadWrite refused = Trying.refused(Refused.BadWrite.class, () -> BAG.update(List.of(), Writes.of("tags", Set.of(longest))));
        Trying.same(refused.path(), "tags");
    }

    static void testValuesOfEachType() {
        Bag bag = Bag.of(WIDE);
        BigInteger big = BigInteger.ONE.shiftLeft(64).subtract(BigInteger.ONE);
        Map<String, Object> left = Map.of("left", 5, "names", Set.of("p", "q"));
        Counter hops = Counter.of(Map.of(Bytes.of((byte) 1), BigInteger.TEN, Bytes.of((byte) -1), big));
        Writes writes = Writes.of("sum", Long.MIN_VALUE).set("big", big).set("raw", Bytes.of((byte) 0, (byte) -1)).set("at", List.of(-3, "q\"\\\n"))
            .set("on", true)
            .set("inner.name", Optional.of("n")).set("inner.deep.hops", hops).set("by", Map.of("k", left));
        Context context = bag.update(List.of(), writes);
        Map<String, Field<Object>> all = bag.readAll(context);
        Trying.same(all.keySet().toString(), "[sum, big, raw, at, on, inner.name, inner.deep.hops, by]");
        all.forEach((path, field) -> Trying.same(field, bag.read(context, path)));
        Trying.same(bag.readScalar(context, "sum", Long.class).value(), Optional.of(Long.MIN_VALUE));
        Trying.same(bag.readScalar(context, "big", BigInteger.class).value(), Optional.of(big));
        Trying.same(bag.readScalar(context, "raw", Bytes.class).value(), Optional.of(Bytes.of((byte) 0, (byte) -1)));
        Trying.same(bag.readScalar(context, "at", List.class).value(), Optional.of(List.of(-3L, "q\"\\\n")));
        Trying.same(bag.readScalar(context, "on", Boolean.class), bag.read(context, "on"));
        Trying.same(bag.readCounter(context, "inner.deep.hops").value(), hops);
        Trying.same(bag.readCounter(context, "inner.deep.hops").value().total(), big.add(BigInteger.TEN));
        Trying.same(bag.readMap(context, "by", String.class).value(), Map.of("k", Map.of("left", Optional.of(5L), "names", Set.of("p", "q"))));
        // What is read is written again, by the values.
        Writes again = Writes.NONE;
        for (Map.Entry<String, Field<Object>> each : all.entrySet()) {
            again = again.set(each.getKey(), each.getValue().value());
        }
        Trying.same(bag.update(List.of(), again), context);
        Trying.same(bag.readScalar(Context.LOST, "sum", Long.class).toString(), "partial Optional.empty");
        Trying.refused(ClassCastException.class, () -> bag.readScalar(context, "sum", String.class));
        Trying.refused(ClassCastException.class, () -> bag.readTaint(context, "sum"));
    }

    static void testRefusedWrites() {
        Bag bag = Bag.of(WIDE);
        Object[][] rows = {{"sum", new BigInteger("9223372036854775808")}, {"sum", 1.5}, {"sum", "1"}, {"big", -1}, {"raw", "x"}, {"at", List.of(1)},
            {"on", 1}, {"by", Map.of("k", Map.of())},
            {"by", Map.of("k", Map.of("nope", 1))}, {"by", Map.of(1, Map.of("left", 1))}, {"inner.name", "\ud800"}, {"inner.deep.hops", Map.of()},
                {"at", List.of(1L << 40, "x")}};
        for (Object[] row : rows) {
            Writes writes = Writes.of("on", true).set((String) row[0], row[1]);
            Refused.BadWrite refused = Trying.refused(Refused.BadWrite.class, () -> bag.update(List.of(), writes));
            Trying.same(List.of(refused.write(), refused.path()), List.of(2, row[0]));
        }
        Refused.NoField unknown = Trying.refused(Refused.NoField.class, () -> bag.update(List.of(), Writes.of("on", true).set("inner", 1)));
        Trying.same(unknown.getMessage(), "write 2: no field \"inner\"");
        Refused.NoField split = Trying.refused(Refused.NoField.class, () -> bag.update(List.of(), Writes.NONE.text("on on\non", "on")));
        Trying.same(split.write(), 1);
        Refused.BadWrite text = Trying.refused(Refused.BadWrite.class, () -> BAG
            .update(List.of(), Writes.of("tags", Set.of("a", "b")).text("id", "x\u202e")));
        Trying.same(text.getMessage(), "write 2: id: no write to scalar fixed32: x\\u202e");
        for (String bad : List.of("\"a\"\ndebug on", "\"\ud800\"", "")) {
            Trying.same(Trying.refused(Refused.BadWrite.class, () -> BAG.update(List.of(), Writes.NONE.text("tags", bad))).write(), 1);
        }
    }

    static void testTablesAndExcerpts() {
        Table table = Table.of(WIDE);
        Trying.same(table.only("inner.deep").text(), "baggage table 1\n0 5 inner bag\n1 1 deep bag\n2 7 hops counter\n");
        Trying.same(table.only("by").slots(), List.of("by"));
        Trying.same(Bag.of(WIDE), Bag.of(table));
        Trying.same(table.only(), Table.EMPTY);
        Trying.same(Trying.refused(Refused.NoField.class, () -> table.only("by.left")).path(), "by.left");
        Refused.BadTable refused = Trying.refused(Refused.BadTable.class, () -> Table.of(WIDE + "0 1 sum taint\n"));
        Trying.same(List.of(refused.line(), refused.code()), List.of(14, "Order"));
        Trying.refused(Refused.BadTable.class, () -> Table.of("baggage table 1\n0 0 \u00e9 taint\n"));
    }

    static void testTextsHaveALimit() {
        Context context = Trying.said("tags", Set.of("x".repeat(100)));
        Refused.TooLong refused = Trying.refused(Refused.TooLong.class, () -> BAG.text(context, "tags", 50));
        Trying.same(List.of(refused.size(), refused.limit()), List.of(104L, 50L));
        Trying.same(BAG.text(context, "tags", 104).value().length(), 104);
        Trying.refused(Refused.TooLong.class, () -> BAG.report(context, 10));
        Trying.refused(IllegalArgumentException.class, () -> BAG.report(context, -1));
        Trying.same(Texts.visible("a\u009bb\u202e\u2028\ud800\ud83d\ude00\n"), "a\\u009bb\\u202e\\u2028\\ud800\ud83d\ude00\\u000a");
    }

    static void testWhatLeaves() {
        Context context = Context.join(Trying.said("id", 7), Trying.said("tags", Set.of("a")));
        Bag shown = BAG.only("id");
        Trying.same(shown.read(shown.keep(Bag.Others.UNSAID, 100, context), "id").toString(), "exact Optional[7]");
        Trying.same(BAG.readSet(BAG.only("id").keep(Bag.Others.CUT, 100, context), "tags", String.class), BAG
            .readSet(Context.LOST, "tags", String.class));
    }

    static void testHeaders() {
        Context context = Context.join(Trying.said("id", 7), Trying.said("tags", Set.of("a")));
        String value = Carriers.toHeader(context);
        Trying.same(Carriers.fromHeader(value), context);
        Trying.same(Carriers.extract(Map.of("TERNCOMMODE", List.of(value)), Context.EMPTY), context);
        Trying.same(Carriers.extract(Map.of(), Context.LOST), Context.LOST);
        for (int k = 0; k < value.length(); k++) {
            Trying.same(Carriers.fromHeader(value.substring(0, k)), Context.LOST);
            Trying.same(Carriers.fromHeader(value.substring(0, k) + "~" + value.substring(k + 1)), Context.LOST);
        }
        Trying.same(Carriers.fromHeader("\u0141" + value.substring(1)), Context.LOST);
        Trying.same(Carriers.fromBinary(Carriers.toBinary(context)), context);
        Trying.same(Carriers.fromBinary(new byte[0]), Context.LOST);
        byte[] binary = Carriers.toBinary(context);
        for (int length = 0; length < binary.length; length++) {
            Trying.same(Carriers.fromBinary(Arrays.copyOf(binary, length)), Context.LOST);
        }
    }

    static void testReplies() {
        String sent = Carriers.toHeader(Trying.said("id", 7));
        String check = Carriers.checkOf(List.of(" " + sent + " , x")).get();
        Context back = Trying.said("debug", true);
        Map<String, List<String>> reply = Map.of("terncommode", List.of(Carriers.toHeader(back)), "terncommode-for", List.of(check));
        Trying.same(Carriers.extractReply(reply, sent), back);
        Trying.same(Carriers.extractReply(reply, Carriers.toHeader(Trying.said("id", 8))), Context.LOST);
        Trying.same(Carriers.extractReply(reply, "?"), Context.LOST);
        Trying.same(Carriers.extractReply(Map.of("terncommode-for", List.of(check)), sent), Context.LOST);
        Trying.same(Carriers.extractReply(Map.of("terncommode", List.of(Carriers.toHeader(back)), "terncommode-for", List.of(check, check)), sent),
            Context.LOST);
        Trying.same(Carriers.noCache(List.of()), "no-cache=\"terncommode\"");
        Trying.same(Carriers.noCache(List.of("max-age=60", "no-cache=\"Set-Cookie\"")),
            "max-age=60, no-cache=\"Set-Cookie\", no-cache=\"terncommode\"");
        Trying.same(Carriers.noCache(List.of("No-Cache=\"a, Terncommode\"")), "No-Cache=\"a, Terncommode\"");
    }

    static void testMembers() {
        Context context = Trying.said("id", 7);
        String value = Members.inject(List.of("a=1;p, terncommode=old", "bad key"), context, 3000);
        Trying.same(value, "terncommode=" + Carriers.toHeader(context) + ",a=1;p,bad key");
        Trying.same(Members.extract(List.of(value.replace(",a=1", ";q,a=1")), Context.LOST), context);
        Trying.same(Members.extract(List.of("a=1"), Context.LOST), Context.LOST);
        Trying.same(Members.extract(List.of("terncommode=x"), Context.EMPTY), Context.LOST);
        Trying.same(Members.others(List.of("a=1", "%74erncommode=x , b=2", "terncommode;x", "%zz=1")), List.of("a=1", "b=2", "%zz=1"));
        String full = "x=" + "y".repeat(8180);
        Trying.same(Members.inject(List.of(full), context, 3000), full);
        String many = String.join(",", Collections.nCopies(64, "x=y"));
        Trying.same(Members.inject(List.of(many), context, 3000), many);
        Context longer = Trying.said("tags", Set.of("x".repeat(5000)));
        Trying.same(Members.inject(List.of(), longer, 100_000).length() <= 4096, true);
    }

    static void testStrangers() {
        Bag open = BAG.only("id", "tags");
        Context said = Context.join(Trying.said("id", 7), Trying.said("tags", Set.of("a")));
        Trying.same(Ingress.letIn(List.of(Carriers.toHeader(said)), open), said);
        Trying.same(Ingress.letIn(List.of(), open), Context.EMPTY);
        Context more = said.join(Trying.said("debug", true));
        Trying.same(open.read(Ingress.letIn(List.of(Carriers.toHeader(more)), open), "id").toString(), "partial Optional[7]");
        Trying.same(Ingress.letIn(List.of(Carriers.toHeader(more)), open, Limits.USUAL.dropPartial()), said);
        Trying.same(Ingress.letIn(List.of("x".repeat(9000)), open), Context.LOST);
        Trying.same(Ingress.letIn(List.of(Carriers.toHeader(said)), open, Limits.USUAL.text(0).dropPartial()), Context.EMPTY);
    }

    static void testIllTyped() {
        Context ill = Context.of(Answers.bytesOf("02f80003007878"));
        Refused.IllTyped refused = Trying.refused(Refused.IllTyped.class, () -> BAG.update(Trying.said("id", 1).join(ill)));
        Trying.same(refused.input(), 0);
        Trying.same(BAG.only("tags").update(ill), ill);
        Trying.same(new String(Trying.BAG.report(Context.EMPTY).getBytes(StandardCharsets.UTF_8), StandardCharsets.UTF_8).split("\n").length, 6);
    }
}
