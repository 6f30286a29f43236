import java.io.BufferedReader;
import java.io.IOException;
import java.io.InputStreamReader;
import java.io.PrintStream;
import java.math.BigInteger;
import java.nio.charset.StandardCharsets;
import java.util.ArrayDeque;
import java.util.ArrayList;
import java.util.Arrays;
import java.util.Deque;
import java.util.List;
import java.util.Map;
import java.util.function.Function;
import java.util.function.Supplier;
import org.terncommode.Bag;
import org.terncommode.Carriers;
import org.terncommode.Context;
import org.terncommode.Field;
import org.terncommode.Form;
import org.terncommode.Refused;
import org.terncommode.Texts;
import org.terncommode.Writes;

/** Answers questions about the binding, a line each, as bindings/tests/README.md has them: answers &lt; QUESTIONS. */
final class Answers {
    /** Each question takes its words, and then answers. */
    private static final Map<String, Function<Taken, Supplier<String>>> QUESTIONS = Map.ofEntries(
        Map.entry("parse", taken -> {
            Context context = taken.context();
            return () -> shown(context);
        }),
        Map.entry("bytes", taken -> {
            Form form = taken.form();
            Context context = taken.context();
            return () -> digits(context.bytes(form));
        }),
        Map.entry("join", taken -> {
            List<Context> contexts = taken.contexts();
            return () -> shown(Context.join(contexts));
        }),
        Map.entry("cut", taken -> {
            Form form = taken.form();
            long budget = taken.budget();
            Context context = taken.context();
            return () -> shown(context.cut(budget, form));
        }),
        Map.entry("to_header", taken -> {
            Context context = taken.context();
            return () -> Carriers.toHeader(context);
        }),
        Map.entry("from_header", taken -> {
            String value = taken.value();
            return () -> shown(Carriers.fromHeader(value));
        }),
        Map.entry("from_binary", taken -> {
            byte[] bytes = taken.bytes();
            return () -> shown(Carriers.fromBinary(bytes));
        }),
        Map.entry("extract", taken -> {
            Context absent = taken.word().equals("empty") ? Context.EMPTY : Context.LOST;
            List<String> values = new ArrayList<>();
            while (taken.hasMore()) {
                values.add(taken.value());
            }
            return () -> shown(Carriers.extract(values.isEmpty() ? Map.of() : Map.of("terncommode", values), absent));
        }),
        Map.entry("only", taken -> {
            Bag bag = taken.bag();
            String[] paths = taken.rest();
            return () -> digits(bag.only(paths).table().text().getBytes(StandardCharsets.US_ASCII));
        }),
        Map.entry("receive", taken -> {
            Bag bag = taken.bag();
            byte[] bytes = taken.bytes();
            return () -> shown(bag.receive(bytes));
        }),
        Map.entry("quote", taken -> {
            String text = new String(taken.bytes(), StandardCharsets.UTF_8);
            return () -> digits(Texts.quote(text).getBytes(StandardCharsets.UTF_8));
        }),
        Map.entry("update", taken -> {
            Bag bag = taken.bag().in(taken.form());
            long budget = taken.budget();
            Writes writes = taken.writes();
            List<Context> contexts = taken.contexts();
            return () -> shown(bag.update(contexts, writes, budget));
        }),
        Map.entry("set", taken -> {
            Bag bag = taken.bag();
            Writes writes = Writes.NONE.text(taken.text(), taken.text());
            return () -> shown(bag.update(List.of(), writes));
        }),
        Map.entry("keep", taken -> {
            Bag bag = taken.bag().in(taken.form());
            Bag.Others others = taken.word().equals("cut") ? Bag.Others.CUT : Bag.Others.UNSAID;
            long budget = taken.budget();
            List<Context> contexts = taken.contexts();
            return () -> shown(bag.keep(others, budget, contexts.toArray(new Context[0])));
        }),
        Map.entry("text", taken -> {
            Bag bag = taken.bag();
            String path = taken.word();
            Context context = taken.context();
            return () -> {
                Field<String> text = bag.text(context, path);
                return (text.isExact() ? "exact " : "partial ") + text.value();
            };
        }),
        Map.entry("report", taken -> {
            Bag bag = taken.bag();
            Context context = taken.context();
            return () -> digits(bag.report(context).getBytes(StandardCharsets.UTF_8));
        }));

    private Answers() {}

    /** The words of a question, from its front. The first that isn't right is the answer. */
    private static final class Taken {
        private final Deque<String> words;
        private Refused refused;

        Taken(List<String> words) {
            this.words = new ArrayDeque<>(words);
        }

        boolean hasMore() {
            return !words.isEmpty();
        }

        String word() {
            return words.remove();
        }

        String[] rest() {
            return words.toArray(new String[0]);
        }

        byte[] bytes() {
            return bytesOf(word());
        }

        /** The value of a header, as servers make it: a character for each byte. */
        String value() {
            return new String(bytes(), StandardCharsets.ISO_8859_1);
        }

        /** A text; bytes that aren't UTF-8 give half a letter, which no write has. */
        String text() {
            return textOf(bytes());
        }

        Form form() {
            return word().equals("2") ? Form.TWO : Form.ONE;
        }

        long budget() {
            String word = word();
            BigInteger budget = word.equals("-") ? BigInteger.valueOf(Context.NO_BUDGET) : new BigInteger(word);
            return budget.min(BigInteger.valueOf(Context.NO_BUDGET)).longValueExact();
        }

        private <T> T right(Supplier<T> made, T otherwise) {
            try {
                return made.get();
            } catch (Refused error) {
                refused = refused == null ? error : refused;
                return otherwise;
            }
        }

        Context context() {
            byte[] bytes = bytes();
            return right(() -> Context.of(bytes), Context.EMPTY);
        }

        List<Context> contexts() {
            List<Context> contexts = new ArrayList<>();
            while (hasMore()) {
                contexts.add(context());
            }
            return contexts;
        }

        Bag bag() {
            String table = text();
            return right(() -> Bag.of(table), Bag.EMPTY);
        }

        Writes writes() {
            Writes writes = Writes.NONE;
            String lines = text();
            for (String line : lines.isEmpty() ? List.<String>of() : Arrays
                .asList((lines.endsWith("\n") ? lines.substring(0, lines.length() - 1) : lines).split("\n", -1))) {
                int blank = line.indexOf(' ');
                writes = writes.text(blank < 0 ? line : line.substring(0, blank), blank < 0 ? "" : line.substring(blank + 1));
            }
            return writes;
        }
    }

    static byte[] bytesOf(String digits) {
        byte[] bytes = new byte[digits.equals("-") ? 0 : digits.length() / 2];
        for (int k = 0; k < bytes.length; k++) {
            bytes[k] = (byte) Integer.parseInt(digits.substring(2 * k, 2 * k + 2), 16);
        }
        return bytes;
    }

    static String textOf(byte[] bytes) {
        String text = new String(bytes, StandardCharsets.UTF_8);
        boolean isUtf8 = Arrays.equals(text.getBytes(StandardCharsets.UTF_8), bytes);
        return isUtf8 ? text : text.replace('\ufffd', '\ud800');
    }

    static String digits(byte[] bytes) {
        StringBuilder digits = new StringBuilder();
        for (byte each : bytes) {
            digits.append(Character.forDigit(each >> 4 & 15, 16)).append(Character.forDigit(each & 15, 16));
        }
        return bytes.length == 0 ? "-" : digits.toString();
    }

    private static String shown(Context context) {
        return digits(context.bytes());
    }

    private static String answer(String line) {
        List<String> words = Arrays.asList(line.split(" "));
        Function<Taken, Supplier<String>> question = QUESTIONS.get(words.get(0));
        if (question == null) {
            return "! Unknown";
        }
        try {
            Taken taken = new Taken(words.subList(1, words.size()));
            Supplier<String> answered = question.apply(taken);
            if (taken.refused != null) {
                throw taken.refused;
            }
            return answered.get();
        } catch (Refused.Fault refused) {
            return "! Fault " + refused.offset() + " " + refused.code();
        } catch (Refused.IllTyped refused) {
            return "! IllTyped " + refused.input() + " " + refused.offset();
        } catch (Refused.BadTable refused) {
            return "! BadTable " + refused.line() + " " + refused.code();
        } catch (Refused.NoField refused) {
            return "! NoField " + refused.write();
        } catch (Refused.BadWrite refused) {
            return "! BadWrite " + refused.write();
        }
    }

    public static void main(String[] words) throws IOException {
        BufferedReader in = new BufferedReader(new InputStreamReader(System.in, StandardCharsets.US_ASCII));
        PrintStream out = new PrintStream(System.out, false, StandardCharsets.UTF_8);
        for (String line = in.readLine(); line != null; line = in.readLine()) {
            out.print(answer(line) + "\n");
        }
        out.flush();
    }
}
