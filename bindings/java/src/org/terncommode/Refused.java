package org.terncommode;

/** Anything that the library refuses. Out of memory is an OutOfMemoryError. */
public abstract class Refused extends RuntimeException {
    private static final long serialVersionUID = 1;

    private Refused(String message) {
        super(message);
    }

    private static String nameOf(String[] names, int code) {
        return code > 0 && code <= names.length ? names[code - 1] : Integer.toString(code);
    }

    /** Bytes that aren't those of a context. */
    public static final class Fault extends Refused {
        private static final long serialVersionUID = 1;
        private static final String[] NAMES = {"CutLength", "BadCount", "AtomTooLong", "LongForm", "CutBody", "BadPrefix", "BadIndex", "LevelJump",
            "OutOfOrder"};
        private final int input;
        private final long offset;
        private final String code;

        Fault(int input, long offset, String code) {
            super("context " + input + ": " + code + " at byte " + offset);
            this.input = input;
            this.offset = offset;
            this.code = code;
        }

        static String nameOf(int code) {
            return Refused.nameOf(NAMES, code);
        }

        /** Which input it is, from 0 on. */
        public int input() {
            return input;
        }

        /** How many of its bytes stand before the fault. */
        public long offset() {
            return offset;
        }

        /** The fault's name, as the program prints it. */
        public String code() {
            return code;
        }
    }

    /** A context with an atom that isn't spelled as the type of its field says. */
    public static final class IllTyped extends Refused {
        private static final long serialVersionUID = 1;
        private final int input;
        private final long offset;

        IllTyped(int input, long offset) {
            super("context " + input + ": ill typed at byte " + offset);
            this.input = input;
            this.offset = offset;
        }

        /** Which input it is, from 0 on. */
        public int input() {
            return input;
        }

        /** How many of its bytes stand before the atom. */
        public long offset() {
            return offset;
        }
    }

    /** A name path that no slot of the bag has. */
    public static final class NoField extends Refused {
        private static final long serialVersionUID = 1;
        private final int write;
        private final String path;

        NoField(int write, String path) {
            super((write > 0 ? "write " + write + ": " : "") + "no field \"" + Texts.shown(path) + "\"");
            this.write = write;
            this.path = path;
        }

        /** The number of the write, from 1 on; 0 outside of writes. */
        public int write() {
            return write;
        }

        /** The path. */
        public String path() {
            return path;
        }
    }

    /** A value that a field can't hold, or a text that is no write to it. */
    public static final class BadWrite extends Refused {
        private static final long serialVersionUID = 1;
        private final int write;
        private final String path;
        private final String reason;

        BadWrite(int write, String path, String reason) {
            super((write > 0 ? "write " + write + ": " : "") + Texts.shown(path) + ": " + Texts.visible(reason));
            this.write = write;
            this.path = path;
            this.reason = reason;
        }

        /** The number of the write, from 1 on; 0 outside of writes. */
        public int write() {
            return write;
        }

        /** The path of the field. */
        public String path() {
            return path;
        }

        /** What is wrong. */
        public String reason() {
            return reason;
        }
    }

    /** A text of what a context says that is longer than was allowed. */
    public static final class TooLong extends Refused {
        private static final long serialVersionUID = 1;
        private final long size;
        private final long limit;

        TooLong(long size, long limit) {
            super("the text has " + size + " bytes, and " + limit + " are allowed");
            this.size = size;
            this.limit = limit;
        }

        /** How many bytes it has. */
        public long size() {
            return size;
        }

        /** How many it may have. */
        public long limit() {
            return limit;
        }
    }

    /** A text that isn't that of a table. */
    public static final class BadTable extends Refused {
        private static final long serialVersionUID = 1;
        private static final String[] NAMES = {"Head", "Form", "Depth", "Order", "DuplicateField", "TooDeep", "TooManySlots"};
        private final int line;
        private final String code;

        BadTable(int line, String code) {
            super("table line " + line + ": " + code);
            this.line = line;
            this.code = code;
        }

        static String nameOf(int code) {
            return Refused.nameOf(NAMES, code);
        }

        /** Its first bad line, from 1 on. */
        public int line() {
            return line;
        }

        /** The fault's name, as the program prints it. */
        public String code() {
            return code;
        }
    }

    /** Something was to be said of a request where none runs. */
    public static final class NoRequest extends Refused {
        private static final long serialVersionUID = 1;

        NoRequest() {
            super("no request runs here: run it in one, or hand threads and pools what Request.wrap gives");
        }
    }
}
