package org.terncommode;

/** The limits of what strangers may say. It never changes: each call gives another one. */
public final class Limits {
    /** 8,192 letters of all values together, 16 contexts in them, texts of 1,024 letters, 3,000 bytes of the context that is made. */
    public static final Limits USUAL = new Limits(8192, 16, 1024, Carriers.REQUEST_BUDGET, false);

    final int letters;
    final int parts;
    final int text;
    final long budget;
    final boolean dropsPartial;

    private Limits(int letters, int parts, int text, long budget, boolean dropsPartial) {
        this.letters = letters;
        this.parts = parts;
        this.text = text;
        this.budget = budget;
        this.dropsPartial = dropsPartial;
    }

    /** Letters of all values together; of more nothing is read. */
    public Limits letters(int most) {
        return new Limits(most, parts, text, budget, dropsPartial);
    }

    /** Contexts in the values; of more the first are read. */
    public Limits parts(int most) {
        return new Limits(letters, most, text, budget, dropsPartial);
    }

    /** Bytes of one literal. */
    public Limits text(int most) {
        return new Limits(letters, parts, most, budget, dropsPartial);
    }

    /** Bytes of the context that is made. */
    public Limits budget(long most) {
        return new Limits(letters, parts, text, most, dropsPartial);
    }

    /**
     * The request begins here: what isn't whole is left out, and nothing is said of it. Otherwise every field is partial where something was lost,
     * cut, ill typed or longer than these limits.
     */
    public Limits dropPartial() {
        return new Limits(letters, parts, text, budget, true);
    }
}
