package org.terncommode;

import java.io.IOException;
import java.io.InputStream;
import java.nio.file.Files;
import java.nio.file.Path;
import java.nio.file.StandardCopyOption;
import java.util.List;
import java.util.Locale;

/** The calls of the library, with their refusals as exceptions. It keeps no state, so threads may call it at any time. */
final class Native {
    static final int FORM_ONE = 1;
    static final int CUT = 1;
    static final int UNSAID = 2;
    static final byte[] LOST = {0};

    private static final int MAJOR = 2;
    private static final int OK = 0;
    private static final int FAULT = 1;
    private static final int ROOM = 2;
    private static final int MEMORY = 3;
    private static final int TABLE = 6;
    private static final int FIELD = 7;
    private static final int WRITE = 8;
    private static final int TYPE = 9;
    private static final int EXACT = 1;
    private static final String PROPERTY = "terncommode.library";

    static {
        load();
        int version = version();
        if (version / 10000 != MAJOR) {
            throw new UnsatisfiedLinkError("terncommode: the library has version " + version / 10000 + ", and version " + MAJOR + " is wanted");
        }
    }

    private Native() {}

    /** Inputs one after another, with their lengths. */
    private static final class Inputs {
        final byte[] bytes;
        final int[] lengths;

        Inputs(List<byte[]> inputs) {
            long total = 0;
            lengths = new int[inputs.size()];
            for (int k = 0; k < lengths.length; k++) {
                lengths[k] = inputs.get(k).length;
                total += lengths[k];
            }
            if (total > Integer.MAX_VALUE - 8) {
                throw new OutOfMemoryError("contexts of " + total + " bytes together");
            }
            bytes = lengths.length == 1 ? inputs.get(0) : joined(inputs, (int) total);
        }

        private static byte[] joined(List<byte[]> inputs, int total) {
            byte[] joined = new byte[total];
            int at = 0;
            for (byte[] input : inputs) {
                System.arraycopy(input, 0, joined, at, input.length);
                at += input.length;
            }
            return joined;
        }
    }

    static byte[] join(Form form, List<byte[]> inputs, long budget) {
        long[] told = new long[5];
        Inputs in = new Inputs(inputs);
        return made(told, join(told, form.number(), in.bytes, in.lengths, form.least(budget)), 0);
    }

    /** The merge of what came as bytes, of which what isn't a context counts as lost. */
    static byte[] read(List<byte[]> inputs) {
        long[] told = new long[5];
        Inputs in = new Inputs(inputs);
        return made(told, read(told, in.bytes, in.lengths), 0);
    }

    static byte[] update(Form form, byte[] table, List<byte[]> inputs, byte[] writes, long budget) {
        long[] told = new long[5];
        Inputs in = new Inputs(inputs);
        return made(told, update(told, form.number(), table, in.bytes, in.lengths, writes, form.least(budget)), 0);
    }

    static byte[] keep(Form form, int others, byte[] table, List<byte[]> inputs, long budget) {
        long[] told = new long[5];
        Inputs in = new Inputs(inputs);
        return made(told, keep(told, form.number(), others, table, in.bytes, in.lengths, form.least(budget)), 0);
    }

    static byte[] report(byte[] table, byte[] context, int limit) {
        long[] told = new long[5];
        return made(told, report(told, table, context, limit), limit);
    }

    static Field<byte[]> readField(byte[] table, byte[] context, byte[] name, int limit) {
        long[] told = new long[5];
        byte[] text = made(told, readField(told, table, context, name, limit), limit);
        return new Field<>(text, told[1] == EXACT);
    }

    /** Of each slot of a table, how many bytes of a context say something of it: below zero where one is ill typed. */
    static long[] places(byte[] table, byte[] context, int slots) {
        long[] told = new long[5];
        long[] lengths = new long[slots];
        places(told, table, context, lengths);
        if (told[0] != OK) {
            throw refusal(told, 0);
        }
        return lengths;
    }

    /** Refuses what isn't a table. */
    static void checkTable(byte[] table) {
        long[] told = new long[5];
        checkTable(told, table);
        if (told[0] != OK) {
            throw refusal(told, 0);
        }
    }

    private static byte[] made(long[] told, byte[] bytes, int limit) {
        if (bytes == null) {
            throw refusal(told, limit);
        }
        return bytes;
    }

    private static RuntimeException refusal(long[] told, int limit) {
        switch ((int) told[0]) {
            case FAULT:
                return new Refused.Fault((int) told[2], told[3], Refused.Fault.nameOf((int) told[1]));
            case TYPE:
                return new Refused.IllTyped((int) told[2], told[3]);
            case FIELD:
                return new Refused.NoField((int) told[3], "");
            case WRITE:
                return new Refused.BadWrite((int) told[3], "", "no write");
            case TABLE:
                return new Refused.BadTable((int) told[3], Refused.BadTable.nameOf((int) told[1]));
            case ROOM:
                return new Refused.TooLong(told[4], limit);
            case MEMORY:
                throw new OutOfMemoryError("a context or a text has no place in memory");
            default:
                return new IllegalStateException("the library answers with status " + told[0]);
        }
    }

    private static native int version();

    private static native byte[] join(long[] told, int form, byte[] inputs, int[] lengths, long budget);

    private static native byte[] read(long[] told, byte[] inputs, int[] lengths);

    private static native byte[] update(long[] told, int form, byte[] table, byte[] inputs, int[] lengths, byte[] writes, long budget);

    private static native byte[] keep(long[] told, int form, int others, byte[] table, byte[] inputs, int[] lengths, long budget);

    private static native byte[] report(long[] told, byte[] table, byte[] context, long limit);

    private static native byte[] readField(long[] told, byte[] table, byte[] context, byte[] name, long limit);

    private static native void places(long[] told, byte[] table, byte[] context, long[] lengths);

    private static native void checkTable(long[] told, byte[] table);

    // ---- where the library is found

    /** Loads the file that the property names, else the one inside of the jar. */
    private static void load() {
        String named = System.getProperty(PROPERTY);
        if (named != null) {
            System.load(Path.of(named).toAbsolutePath().toString());
            return;
        }
        String resource = "native/" + platform() + "/libterncommode.so";
        try (InputStream inside = Native.class.getResourceAsStream(resource)) {
            if (inside == null) {
                throw new UnsatisfiedLinkError("terncommode: the jar has no library for " + platform() + "; name one by -D" + PROPERTY + "=PATH");
            }
            loadCopy(inside);
        } catch (IOException error) {
            UnsatisfiedLinkError refused = new UnsatisfiedLinkError("terncommode: the library can't be unpacked: " + error + "; name one by -D"
                + PROPERTY + "=PATH");
            refused.initCause(error);
            throw refused;
        }
    }

    /** Loads a copy in the folder for temporary files, which only this user can write, and which is gone as soon as it is loaded. */
    private static void loadCopy(InputStream inside) throws IOException {
        Path copy = Files.createTempFile("libterncommode", ".so");
        try {
            Files.copy(inside, copy, StandardCopyOption.REPLACE_EXISTING);
            System.load(copy.toString());
        } finally {
            Files.deleteIfExists(copy);
        }
    }

    private static String platform() {
        String processor = System.getProperty("os.arch", "").toLowerCase(Locale.ROOT);
        if (processor.equals("amd64") || processor.equals("x86-64")) {
            processor = "x86_64";
        }
        return System.getProperty("os.name", "").toLowerCase(Locale.ROOT).replace(' ', '_') + "-" + processor;
    }
}
