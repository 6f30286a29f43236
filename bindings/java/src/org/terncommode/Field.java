package org.terncommode;

import java.util.Objects;
import java.util.function.Function;

/**
 * What a context says of a field.
 *
 * @param <T> what the field holds
 */
public final class Field<T> {
    private final T value;
    private final boolean isExact;

    Field(T value, boolean isExact) {
        this.value = Objects.requireNonNull(value);
        this.isExact = isExact;
    }

    /** The value. Of a field that isn't exact it is what is known: more may have been said. */
    public T value() {
        return value;
    }

    /** Whether nothing of it can have been cut off. */
    public boolean isExact() {
        return isExact;
    }

    /** The field with what a function makes of its value. */
    public <R> Field<R> map(Function<? super T, ? extends R> function) {
        return new Field<>(function.apply(value), isExact);
    }

    @Override
    public boolean equals(Object other) {
        return other instanceof Field && value.equals(((Field<?>) other).value) && isExact == ((Field<?>) other).isExact;
    }

    @Override
    public int hashCode() {
        return Objects.hash(value, isExact);
    }

    @Override
    public String toString() {
        return (isExact ? "exact " : "partial ") + Texts.visible(value.toString());
    }
}
