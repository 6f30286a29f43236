package org.terncommode;

import java.math.BigInteger;
import java.util.Collections;
import java.util.Map;
import java.util.SortedMap;
import java.util.TreeMap;

/** The value of a counter: how much each writer has counted. */
public final class Counter {
    private final SortedMap<Bytes, BigInteger> counts;

    private Counter(SortedMap<Bytes, BigInteger> counts) {
        this.counts = Collections.unmodifiableSortedMap(counts);
    }

    /** A counter with these counts. */
    public static Counter of(Map<Bytes, BigInteger> counts) {
        return new Counter(new TreeMap<>(counts));
    }

    /** The sum of all counts. */
    public BigInteger total() {
        return counts.values().stream().reduce(BigInteger.ZERO, BigInteger::add);
    }

    /** The counts by writer, in the order of their bytes. */
    public SortedMap<Bytes, BigInteger> counts() {
        return counts;
    }

    @Override
    public boolean equals(Object other) {
        return other instanceof Counter && counts.equals(((Counter) other).counts);
    }

    @Override
    public int hashCode() {
        return counts.hashCode();
    }

    @Override
    public String toString() {
        return total() + counts.toString();
    }
}
