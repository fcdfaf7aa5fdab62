/** Messages of causes, details of AssertionError, messages of what the machine throws, and printStackTrace. */
public class OwnThrowables {
    static class Absent {}

    static class Failing {
        static int field = Integer.parseInt("none");
    }

    static class Own extends Exception {
        Own(Throwable cause) {
            super(cause);
        }
    }

    static class Named extends RuntimeException {
        public String toString() {
            return "named";
        }
    }

    static class Plain {
        Object copy() throws CloneNotSupportedException {
            return clone();
        }
    }

    static void show(Throwable thrown) {
        System.out.println(thrown.getMessage());
        System.out.println(thrown);
        System.out.println(thrown.getCause());
    }

    static void causes() {
        Error cause = new Error("cause");
        show(new Throwable(cause));
        show(new Exception(cause));
        show(new Own(cause));
        show(new Own(null));
        show(new AssertionError((Object) 5));
        show(new AssertionError((Object) cause));
        show(new AssertionError((Object) null));
        show(new AssertionError((Object) "detail"));
        show(new AssertionError("message"));
        show(new AssertionError("message", cause));
        show(new AssertionError(cause));
    }

    static int forever() {
        return forever() + 1;
    }

    static void act(int what, int zero) throws Throwable {
        int[] array = {1, 2, 3};
        Object[] texts = new String[1];
        Object text = "text";
        switch (what) {
            case 0: array = null; array[0] = 1; break;
            case 1: array[3] = 1; break;
            case 2: array[-1] = 1; break;
            case 3: texts[2147483647] = null; break;
            case 4: array[0] = 1 / zero; break;
            case 5: array[0] = (int) (1L % zero); break;
            case 6: array = new int[-1]; break;
            case 7: texts[0] = array; break;
            case 8: array = (int[]) text; break;
            case 9: "text".charAt(4); break;
            case 10: Integer.parseInt("x"); break;
            case 11: System.arraycopy(array, 0, array, 2, 2); break;
            case 12: System.arraycopy(array, 0, texts, 0, 1); break;
            case 13: new Plain().copy(); break;
            case 14: array = new int[2147483647]; break;
            case 15: forever(); break;
            case 16: new Absent(); break;
            case 17: array[0] = Failing.field; break;
            case 18: array[0] = Failing.field; break;
            case 19: new StringBuilder(-1); break;
            case 20: ((Comparable<Object>) text).compareTo(1); break;
            default: throw new Named();
        }
    }

    static void machine() {
        for (int what = 0; what < 22; what++) {
            try {
                act(what, 0);
            } catch (Throwable thrown) {
                show(thrown);
            }
        }
    }

    static void traces() {
        new Exception("message").printStackTrace();
        new Error().printStackTrace();
        new Own(new Error("cause")).printStackTrace();
        new Named().printStackTrace();
        new RuntimeException("").printStackTrace();
    }

    public static void main(String[] args) {
        causes();
        machine();
        traces();
    }
}
