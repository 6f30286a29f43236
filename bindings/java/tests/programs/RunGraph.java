import java.io.IOException;
import java.nio.ByteBuffer;
import java.nio.charset.CharacterCodingException;
import java.nio.charset.StandardCharsets;
import java.nio.file.Files;
import java.nio.file.Path;
import java.util.ArrayList;
import java.util.Arrays;
import java.util.HashMap;
import java.util.List;
import java.util.Map;
import java.util.regex.Matcher;
import java.util.regex.Pattern;
import org.terncommode.Bag;
import org.terncommode.Context;
import org.terncommode.Field;
import org.terncommode.Form;
import org.terncommode.Refused;
import org.terncommode.Writes;

/**
 * Prints the report of a recorded graph, going through it step by step with the binding: run_graph TABLE &lt; GRAPH. It prints what {@code baggage
 * runtable TABLE} prints, refusals too. bindings/tests/README.md says which call stands for which line.
 */
final class RunGraph {
    private static final String NAME = "[A-Za-z_][A-Za-z0-9_]*";
    private static final String PATH = NAME + "(?:\\." + NAME + ")*";
    private static final String NUMBER = "(?:0|[1-9][0-9]{0,9})";
    private static final Pattern DIGITS = Pattern.compile("(?:[0-9a-fA-F]{2})+");
    private static final List<Pattern> FORMS = List.of(
        form("(service2?) (%n) (all|none|only(?: %p)+)"),
        form("(start) (%d) (%n)"),
        form("(recv) (%d) (%n) ([^ ]+)"),
        form("(set) (%d) (%d) (%p) (.+)"),
        form("(branch) (%d) (%d)"),
        form("(forward) (%d) (%d) (%n)"),
        form("(trim) (%d) (%d) (%d)"),
        form("(join) (%d) (%d(?: %d)*)"),
        form("(show) (%d)"));
    private static final int LONGEST_INPUT = 16_777_216;
    private static final int LONGEST_LINE = 2_097_152;
    private static final int MOST_STEPS = 100_000;
    private static final int MOST_PARENTS = 4_096;
    private static final long GREATEST_BUDGET = 4_294_967_295L;
    private static final Map<String, Integer> NAMED = Map.of("start", 3, "recv", 3, "forward", 4);

    private final Bag bag;
    private final Map<String, Service> services = new HashMap<>();
    private final List<Step> steps = new ArrayList<>();
    private final List<Integer> shown = new ArrayList<>();

    private RunGraph(Bag bag) {
        this.bag = bag;
    }

    private static Pattern form(String text) {
        return Pattern.compile(text.replace("%n", NAME).replace("%p", PATH).replace("%d", NUMBER), Pattern.DOTALL);
    }

    /** The form of what stands there, and the bag that it knows. */
    private static final class Service {
        final Form form;
        final Bag bag;

        Service(Form form, Bag bag) {
            this.form = form;
            this.bag = bag.in(form);
        }
    }

    private static final class Step {
        final Service at;
        final Context context;

        Step(Service at, Context context) {
            this.at = at;
            this.context = context;
        }
    }

    /** Why a line is bad. */
    private static final class Bad extends RuntimeException {
        private static final long serialVersionUID = 1;

        Bad(String code) {
            super(code);
        }
    }

    private static void refuseIf(boolean isBad, String code) {
        if (isBad) {
            throw new Bad(code);
        }
    }

    private static String utf8(byte[] line) {
        try {
            return StandardCharsets.UTF_8.newDecoder().decode(ByteBuffer.wrap(line)).toString();
        } catch (CharacterCodingException error) {
            throw new Bad("Form");
        }
    }

    /** One line further. */
    private void add(byte[] bytes) {
        String line = utf8(bytes);
        for (Pattern form : FORMS) {
            Matcher words = form.matcher(line);
            if (words.matches()) {
                act(words.group(1), words);
                return;
            }
        }
        throw new Bad("Form");
    }

    private void act(String act, Matcher words) {
        if (act.startsWith("service")) {
            declare(words);
        } else if (act.equals("show")) {
            parents(words.group(2));
            shown.add(Integer.valueOf(words.group(2)));
        } else {
            step(act, words);
        }
    }

    private void declare(Matcher words) {
        refuseIf(services.containsKey(words.group(2)), "DuplicateService");
        Bag known = bag;
        List<String> views = Arrays.asList(words.group(3).split(" "));
        if (!views.get(0).equals("all")) {
            try {
                known = bag.only(views.subList(1, views.size()).toArray(new String[0]));
            } catch (Refused.NoField refused) {
                throw new Bad("NoSuchPath");
            }
        }
        services.put(words.group(2), new Service(words.group(1).equals("service2") ? Form.TWO : Form.ONE, known));
    }

    private List<Step> parents(String numbers) {
        List<Step> found = new ArrayList<>();
        for (String number : numbers.split(" ")) {
            refuseIf(Long.parseLong(number) >= steps.size(), "NoSuchStep");
            found.add(steps.get(Integer.parseInt(number)));
        }
        return found;
    }

    private void step(String act, Matcher words) {
        refuseIf(Long.parseLong(words.group(2)) != steps.size(), "StepNumber");
        List<Step> parents = act.equals("start") || act.equals("recv") ? List.of() : parents(words.group(3));
        Service at = place(act, words, parents);
        check(act, words, at);
        refuseIf(steps.size() >= MOST_STEPS, "TooManySteps");
        refuseIf(parents.size() > MOST_PARENTS, "TooManyParents");
        List<Context> contexts = new ArrayList<>();
        parents.forEach(parent -> contexts.add(parent.context));
        steps.add(new Step(at, made(act, words, at, contexts)));
    }

    private Service place(String act, Matcher words, List<Step> parents) {
        if (NAMED.containsKey(act)) {
            Service named = services.get(words.group(NAMED.get(act)));
            refuseIf(named == null, "NoSuchService");
            return named;
        }
        parents.forEach(parent -> refuseIf(parent.at != parents.get(0).at, "WrongService"));
        return parents.get(0).at;
    }

    /** Looks at what a line says beside its steps. */
    private void check(String act, Matcher words, Service at) {
        if (act.equals("trim")) {
            long budget = Long.parseLong(words.group(4));
            refuseIf(budget < (at.form == Form.TWO ? 13 : 1) || budget > GREATEST_BUDGET, "BudgetRange");
        }
        if (act.equals("set")) {
            refuseIf(!bag.slots().contains(words.group(4)), "NoSuchPath");
            try {
                at.bag.update(List.of(), Writes.NONE.text(words.group(4), words.group(5)));
            } catch (Refused.NoField refused) {
                throw new Bad("NotKnown");
            } catch (Refused.BadWrite refused) {
                throw new Bad("BadValue");
            }
        }
    }

    private Context made(String act, Matcher words, Service at, List<Context> contexts) {
        switch (act) {
            case "start":
                return Context.EMPTY;
            case "recv":
                return received(at, words.group(4));
            case "branch":
                return contexts.get(0);
            case "trim":
                return contexts.get(0).cut(Long.parseLong(words.group(4)), at.form);
            case "set":
                return at.bag.update(contexts, Writes.NONE.text(words.group(4), words.group(5)));
            default:
                return at.bag.update(contexts, Writes.NONE);
        }
    }

    /** What comes from outside, which has to be typed under the whole table. */
    private Context received(Service at, String word) {
        refuseIf(word.getBytes(StandardCharsets.UTF_8).length > LONGEST_LINE, "HexTooLong");
        refuseIf(!word.equals("-") && !DIGITS.matcher(word).matches(), "BadHex");
        byte[] bytes = Answers.bytesOf(word);
        bag.receive(bytes);
        return at.bag.receive(bytes);
    }

    private String report() {
        StringBuilder report = new StringBuilder();
        for (int number : shown) {
            Step step = steps.get(number);
            report.append("step ").append(number).append("\nbytes ").append(Answers.digits(step.context.bytes(step.at.form))).append('\n');
            for (String path : bag.slots()) {
                Field<String> text = bag.text(step.context, path, Integer.MAX_VALUE);
                report.append(path).append(text.isExact() ? " exact " : " partial ").append(text.value()).append('\n');
            }
        }
        return report.toString();
    }

    /** The lines of a source, each without its end. */
    private static List<byte[]> linesOf(byte[] source) {
        List<byte[]> lines = new ArrayList<>();
        int first = 0;
        for (int k = 0; k <= source.length; k++) {
            if (k == source.length || source[k] == '\n') {
                boolean hasReturn = k < source.length && k > first && source[k - 1] == '\r';
                lines.add(Arrays.copyOfRange(source, first, hasReturn ? k - 1 : k));
                first = k + 1;
            }
        }
        return lines;
    }

    /** Reads the lines that count; the status, with what is said of a refusal. */
    private int run(byte[] source) {
        if (source.length > LONGEST_INPUT) {
            System.err.print("input line 0 TooLong\n");
            return 2;
        }
        List<byte[]> lines = linesOf(source);
        for (int number = 1; number <= lines.size(); number++) {
            byte[] line = lines.get(number - 1);
            int status = line.length == 0 || line[0] == '#' ? 0 : refusal(line, number);
            if (status != 0) {
                return status;
            }
        }
        return 0;
    }

    private int refusal(byte[] line, int number) {
        try {
            add(line);
            return 0;
        } catch (Refused.Fault refused) {
            System.err.print("context line " + number + " offset " + refused.offset() + " " + refused.code() + "\n");
            return 3;
        } catch (Refused.IllTyped refused) {
            System.err.print("context line " + number + " offset " + refused.offset() + " IllTyped\n");
            return 3;
        } catch (Bad bad) {
            System.err.print("input line " + number + " " + bad.getMessage() + "\n");
            return 2;
        }
    }

    public static void main(String[] words) throws IOException {
        RunGraph graph = new RunGraph(Bag.of(Files.readString(Path.of(words[0]), StandardCharsets.ISO_8859_1)));
        int status = graph.run(System.in.readAllBytes());
        if (status == 0) {
            System.out.write(graph.report().getBytes(StandardCharsets.UTF_8));
            System.out.flush();
        }
        System.exit(status);
    }
}
