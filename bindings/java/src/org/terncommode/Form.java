package org.terncommode;

/** A form of bytes. Form two begins with its own length. */
public enum Form {
    /** Of atoms of up to 65,535 bytes. It has no end of its own, so it is sent only where its length travels with it. */
    ONE(1, 1),
    /** Of which no prefix is a context. */
    TWO(2, 13);

    private final int number;
    private final int leastBudget;

    Form(int number, int leastBudget) {
        this.number = number;
        this.leastBudget = leastBudget;
    }

    int number() {
        return number;
    }

    /** The budget, raised to the least one of the form. */
    long least(long budget) {
        if (budget < 0) {
            throw new IllegalArgumentException("a budget of " + budget + " bytes");
        }
        return Math.max(budget, leastBudget);
    }
}
