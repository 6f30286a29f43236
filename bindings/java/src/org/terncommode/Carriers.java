package org.terncommode;

import java.nio.charset.StandardCharsets;
import java.util.ArrayList;
import java.util.Arrays;
import java.util.Base64;
import java.util.LinkedHashSet;
import java.util.List;
import java.util.Locale;
import java.util.Map;
import java.util.Optional;
import java.util.Set;
import java.util.TreeMap;
import java.util.regex.Matcher;
import java.util.regex.Pattern;
import java.util.zip.CRC32;

/**
 * Contexts in headers and in metadata. In text a context is {@code DATA.CHECK}: its bytes in base64url without padding, a dot, and their CRC-32 in
 * six letters. So what was cut or changed on the way isn't taken for a context: it reads as lost.
 */
public final class Carriers {
    /** The name of the header that carries a context. */
    public static final String HEADER = "Terncommode";

    /** The name of the header of a reply that says which context it answers, by the check of the value that came with the request. */
    public static final String FOR_HEADER = "Terncommode-For";

    /** The key of gRPC's metadata, whose values are the bytes of contexts. */
    public static final String GRPC_KEY = "terncommode-bin";

    /** How many bytes a context may have in a request of HTTP. */
    public static final long REQUEST_BUDGET = 3000;

    /** How many bytes a context may have in a reply of HTTP. */
    public static final long REPLY_BUDGET = 2000;

    /** How many bytes a context may have in gRPC's metadata or trailer, in form two. */
    public static final long GRPC_BUDGET = 4000;

    private static final String NO_CACHE = "no-cache=\"terncommode\"";
    private static final Pattern NO_CACHES = Pattern.compile("(?i)(?:^|,)\\s*no-cache\\s*=\\s*\"([^\"]*)\"");
    private static final Pattern PART = Pattern.compile("([A-Za-z0-9_-]*)\\.([A-Za-z0-9_-]{6})");
    private static final Base64.Encoder ENCODER = Base64.getUrlEncoder().withoutPadding();

    private Carriers() {}

    /** The text of a context. It has only letters, digits, '-', '_' and '.'. */
    public static String toHeader(Context context) {
        byte[] data = context.data();
        return ENCODER.encodeToString(data) + "." + checkOf(data);
    }

    private static String checkOf(byte[] data) {
        CRC32 sum = new CRC32();
        sum.update(data);
        long value = sum.getValue();
        return ENCODER.encodeToString(new byte[] {(byte) (value >> 24), (byte) (value >> 16), (byte) (value >> 8), (byte) value});
    }

    /** The context that the value of a header says, the merge where it has several with commas between. What can't be read is lost. */
    public static Context fromHeader(String value) {
        return fromParts(partsOf(List.of(value)));
    }

    /**
     * The context that came in the values of a header: the merge of all that they say, lost where it can't be read, and absent where there is none.
     */
    public static Context extract(List<String> values, Context absent) {
        return values.isEmpty() ? absent : fromParts(partsOf(values));
    }

    /**
     * The context that came in headers, whose names count in any case. Absent is {@link Context#EMPTY} where requests begin, and {@link Context#LOST}
     * where a context was promised.
     */
    public static Context extract(Map<String, List<String>> headers, Context absent) {
        return extract(valuesOf(headers, HEADER), absent);
    }

    /** The parts of values, each once. */
    static Set<String> partsOf(List<String> values) {
        Set<String> parts = new LinkedHashSet<>();
        for (String part : String.join(",", values).split(",", -1)) {
            parts.add(strip(part));
        }
        return parts;
    }

    /** A text without spaces and tabulators around it. */
    static String strip(String text) {
        int first = 0;
        int last = text.length();
        while (first < last && isBlank(text.charAt(first))) {
            first++;
        }
        while (first < last && isBlank(text.charAt(last - 1))) {
            last--;
        }
        return text.substring(first, last);
    }

    private static boolean isBlank(char letter) {
        return letter == ' ' || letter == '\t';
    }

    private static Context fromParts(Iterable<String> parts) {
        List<byte[]> found = new ArrayList<>();
        boolean isLost = false;
        for (String part : parts) {
            Optional<byte[]> data = dataOf(part);
            data.ifPresent(found::add);
            isLost |= data.isEmpty();
        }
        if (isLost) {
            found.add(Native.LOST);
        }
        return Context.read(found);
    }

    /** The bytes that a part says; empty where it isn't spelled as one. */
    static Optional<byte[]> dataOf(String part) {
        Matcher found = PART.matcher(part);
        if (!found.matches()) {
            return Optional.empty();
        }
        try {
            byte[] data = Base64.getUrlDecoder().decode(found.group(1));
            // The decoder takes unused bits that no encoder writes.
            boolean isSpelled = ENCODER.encodeToString(data).equals(found.group(1)) && checkOf(data).equals(found.group(2));
            return isSpelled ? Optional.of(data) : Optional.empty();
        } catch (IllegalArgumentException refused) {
            return Optional.empty();
        }
    }

    /**
     * The bytes of a context for a carrier that keeps bytes and their length, as gRPC, Kafka and AMQP: those of form two, of which no prefix is a
     * context.
     */
    public static byte[] toBinary(Context context) {
        return context.bytes(Form.TWO);
    }

    /** The context of bytes that came so, in either form. It is lost where there is no byte, and where they aren't those of a context. */
    public static Context fromBinary(byte[] bytes) {
        return bytes.length == 0 ? Context.LOST : Context.read(List.of(bytes));
    }

    // ---- replies

    /** The check of the first part of a value that was sent or that came; empty where there is none. */
    public static Optional<String> checkOf(List<String> values) {
        if (values.isEmpty()) {
            return Optional.empty();
        }
        Matcher found = PART.matcher(strip(values.get(0).split(",", 2)[0]));
        return found.matches() ? Optional.of(found.group(2)) : Optional.empty();
    }

    /** Cache-Control with a word that no shared cache may keep the context: it would give the context of one request to another. */
    public static String noCache(List<String> values) {
        String said = String.join(", ", values);
        Matcher found = NO_CACHES.matcher(said);
        while (found.find()) {
            if (Arrays.asList(found.group(1).toLowerCase(Locale.ROOT).split("[ \t]*,[ \t]*")).contains("terncommode")) {
                return said;
            }
        }
        return said.trim().isEmpty() ? NO_CACHE : said + ", " + NO_CACHE;
    }

    /**
     * The context that came with a reply to a request that was sent with this value. It is lost where the reply brings none, and where it doesn't say
     * that it answers this value: it is then of another request, as out of a cache.
     */
    public static Context extractReply(Map<String, List<String>> reply, String sent) {
        Optional<String> check = checkOf(List.of(sent));
        List<String> answers = valuesOf(reply, FOR_HEADER);
        boolean isAnswer = check.isPresent() && answers.size() == 1 && strip(answers.get(0)).equals(check.get());
        return isAnswer ? extract(reply, Context.LOST) : Context.LOST;
    }

    /** All values of a header, in whatever case its name is. */
    public static List<String> valuesOf(Map<String, List<String>> headers, String name) {
        List<String> values = new ArrayList<>();
        headers.forEach((other, several) -> {
            if (name.equalsIgnoreCase(other)) {
                values.addAll(several);
            }
        });
        return values;
    }

    /** Whether a header is one of this project's. */
    public static boolean isOwn(String name) {
        String lower = name.toLowerCase(Locale.ROOT);
        return lower.equals("terncommode") || lower.startsWith("terncommode-");
    }

    /**
     * Headers as they are after an edge: without this project's, and without its members of W3C's {@code baggage}. It can be changed.
     */
    public static Map<String, List<String>> withoutOwn(Map<String, List<String>> headers) {
        Map<String, List<String>> others = new TreeMap<>(String.CASE_INSENSITIVE_ORDER);
        headers.forEach((name, values) -> {
            List<String> kept = name.equalsIgnoreCase(Members.HEADER) ? Members.others(values) : new ArrayList<>(values);
            if (!isOwn(name) && !(kept.isEmpty() && !values.isEmpty())) {
                others.put(name, kept);
            }
        });
        return others;
    }
}
