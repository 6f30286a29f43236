package org.terncommode;

import java.net.URLDecoder;
import java.nio.charset.StandardCharsets;
import java.util.ArrayList;
import java.util.List;

/**
 * A context as one member of W3C's header {@code baggage}, {@code terncommode=DATA.CHECK}, which every service with OpenTelemetry's propagator of
 * that header forwards untouched. The text of the header is read and written, so a malformed member of somebody else's doesn't cost the context.
 */
public final class Members {
    /** The name of W3C's header. */
    public static final String HEADER = "baggage";

    private static final String NAME = "terncommode";

    // What W3C promises to carry, and OpenTelemetry's own limit of a member.
    private static final int HEADER_MEMBERS = 64;
    private static final int HEADER_LETTERS = 8192;
    private static final int MEMBER_LETTERS = 4096;

    private Members() {}

    /**
     * The context that this project's members say, in the values of the header; absent where there is none. Properties after them aren't looked at.
     */
    public static Context extract(List<String> values, Context absent) {
        List<String> own = new ArrayList<>();
        for (String member : membersOf(values)) {
            if (isNamed(member)) {
                own.add(member.substring(member.indexOf('=') + 1).split(";", 2)[0]);
            }
        }
        return Carriers.extract(own, absent);
    }

    /**
     * The value of the header with a member for a context, cut to the budget and to what is left beside the members that stand in these values, which
     * stay. Where they leave no place for a member, they stay alone; so who reads the member takes {@link Context#LOST} where it is absent.
     */
    public static String inject(List<String> values, Context context, long budget) {
        List<String> foreign = membersOf(values);
        foreign.removeIf(Members::isNamed);
        String rest = String.join(",", foreign);
        int letters = Math.min(MEMBER_LETTERS, HEADER_LETTERS - rest.length() - 1) - NAME.length() - "=.CHECK_".length();
        String own = NAME + "=" + Carriers.toHeader(context.cut(Math.max(0, Math.min(budget, letters * 3L / 4))));
        String text = rest.isEmpty() ? own : own + "," + rest;
        return text.length() > HEADER_LETTERS || foreign.size() >= HEADER_MEMBERS ? rest : text;
    }

    /** The values without this project's members, however they are spelled. Values that have none stay as they are. */
    public static List<String> others(List<String> values) {
        List<String> kept = new ArrayList<>();
        for (String value : values) {
            List<String> all = membersOf(List.of(value));
            List<String> foreign = new ArrayList<>(all);
            foreign.removeIf(Members::isOwn);
            if (foreign.size() == all.size()) {
                kept.add(value);
            } else if (!foreign.isEmpty()) {
                kept.add(String.join(",", foreign));
            }
        }
        return kept;
    }

    private static List<String> membersOf(List<String> values) {
        List<String> members = new ArrayList<>();
        for (String member : String.join(",", values).split(",")) {
            String stripped = Carriers.strip(member);
            if (!stripped.isEmpty()) {
                members.add(stripped);
            }
        }
        return members;
    }

    private static boolean isNamed(String member) {
        int equals = member.indexOf('=');
        return equals >= 0 && Carriers.strip(member.substring(0, equals)).equals(NAME);
    }

    /** Whether OpenTelemetry would read a member as one of this project's. */
    private static boolean isOwn(String member) {
        String name = member.split("[=;]", 2)[0];
        try {
            return Carriers.isOwn(URLDecoder.decode(name, StandardCharsets.UTF_8).trim());
        } catch (IllegalArgumentException malformed) {
            return Carriers.isOwn(name.trim());
        }
    }
}
