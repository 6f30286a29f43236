/** Runs the package's own tests, and says how many there are. */
final class AllTests {
    private AllTests() {}

    public static void main(String[] words) {
        Trying.runs(ContextTests.class, RequestTests.class, HttpTests.class);
    }
}
