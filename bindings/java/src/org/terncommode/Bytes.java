package org.terncommode;

import java.util.Arrays;

/** Bytes as a value: they never change, and are equal where they are the same bytes. */
public final class Bytes implements Comparable<Bytes> {
    private final byte[] bytes;

    private Bytes(byte[] bytes) {
        this.bytes = bytes;
    }

    /** These bytes. */
    public static Bytes of(byte... bytes) {
        return new Bytes(bytes.clone());
    }

    static Bytes ofHex(String digits) {
        byte[] bytes = new byte[digits.length() / 2];
        for (int k = 0; k < bytes.length; k++) {
            bytes[k] = (byte) Integer.parseInt(digits.substring(2 * k, 2 * k + 2), 16);
        }
        return new Bytes(bytes);
    }

    /** A copy of the bytes. */
    public byte[] toArray() {
        return bytes.clone();
    }

    /** How many they are. */
    public int length() {
        return bytes.length;
    }

    /** In the order of bytes without sign. */
    @Override
    public int compareTo(Bytes other) {
        return Arrays.compareUnsigned(bytes, other.bytes);
    }

    @Override
    public boolean equals(Object other) {
        return other instanceof Bytes && Arrays.equals(bytes, ((Bytes) other).bytes);
    }

    @Override
    public int hashCode() {
        return Arrays.hashCode(bytes);
    }

    /** Their literal: 0x and hexadecimal digits. */
    @Override
    public String toString() {
        return "0x" + Texts.hex(bytes);
    }
}
