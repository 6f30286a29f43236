import java.lang.reflect.InvocationTargetException;
import java.lang.reflect.Method;
import java.util.Arrays;
import java.util.List;
import java.util.Objects;
import org.terncommode.Bag;
import org.terncommode.Context;
import org.terncommode.Writes;

/** What tests say, and how they run: all static methods of classes whose names begin with "test". */
final class Trying {
    static final String TABLE = "baggage table 1\n0 0 id scalar fixed32\n0 1 tags set string\n0 2 hops counter\n0 3 debug taint\n0 4 load map string scalar uint32\n";
    static final Bag BAG = Bag.of(TABLE);

    /** Something that may throw anything. */
    interface Work {
        void run() throws Exception;
    }

    private Trying() {}

    static Context said(String path, Object value) {
        return BAG.update(List.of(), Writes.of(path, value));
    }

    static void same(Object found, Object expected) {
        if (!Objects.equals(found, expected)) {
            throw new AssertionError("found " + found + "\n   and not " + expected);
        }
    }

    static <E extends Throwable> E refused(Class<E> kind, Work work) {
        try {
            work.run();
        } catch (Throwable error) {
            if (kind.isInstance(error)) {
                return kind.cast(error);
            }
            throw new AssertionError("refused otherwise", error);
        }
        throw new AssertionError("not refused: " + kind.getSimpleName());
    }

    /** Runs the tests of these classes, says how many they are, and ends, whatever threads are left. */
    static void runs(Class<?>... classes) {
        try {
            System.out.println(all(classes) + " tests");
            System.exit(0);
        } catch (AssertionError failed) {
            System.out.println(failed.getMessage());
            System.exit(1);
        }
    }

    /** Runs the tests of these classes, and gives how many they are. */
    private static int all(Class<?>... classes) {
        int count = 0;
        int failed = 0;
        for (Class<?> each : classes) {
            Method[] methods = each.getDeclaredMethods();
            Arrays.sort(methods, (a, b) -> a.getName().compareTo(b.getName()));
            for (Method method : methods) {
                boolean isTest = method.getName().startsWith("test");
                count += isTest ? 1 : 0;
                failed += isTest && !passes(method) ? 1 : 0;
            }
        }
        if (failed > 0) {
            throw new AssertionError(failed + " of " + count + " tests failed");
        }
        return count;
    }

    private static boolean passes(Method method) {
        try {
            method.invoke(null);
            return true;
        } catch (InvocationTargetException error) {
            System.out.println(method.getDeclaringClass().getName() + "." + method.getName() + ":");
            error.getCause().printStackTrace(System.out);
            return false;
        } catch (IllegalAccessException error) {
            throw new AssertionError(error);
        }
    }
}
